#!/usr/bin/env python3
"""Tests of who reads a map's cells while others change them: in place, or a copy.

They need numpy and the library.
"""
import copy
import os
import pickle
import signal
import threading
import time
import unittest
import unittest.mock

import numpy as np

import clearmap
from clearmap import held, library
from clearmap.held import Reading


def words_of(area):
    """Where a map's cells are."""
    return area._held.where[0]


class InPlace(unittest.TestCase):
    def test_where_nobody_else_has_the_cells(self):
        area = clearmap.Map(np.zeros((200, 300), bool))
        before = words_of(area)
        for turn in range(20):
            (area.paint, area.clear)[turn % 2](turn, 0, 90, 150)
            area.at(3, 4), area.path([(0, 0), (9, 0)]), area.distances(), area.grid()
            area.at_many([1], [2]), clearmap.Footprint([(1, 1), (-1, 1), (0, -1)]).hits(area, 5, 5, 1)
        self.assertEqual(words_of(area), before)

    def test_copies_share(self):
        """What has the same cells keeps them: of each copy the first change is of other memory."""
        for copied in (
            clearmap.Map.copy, copy.copy, copy.deepcopy, lambda it: clearmap.Field(it).map,
            lambda it: pickle.loads(pickle.dumps(it)),
        ):  # fmt: skip
            area = clearmap.Map(np.eye(70, dtype=bool))
            other = copied(area)
            area.paint(0, 5, 9, 6)
            np.testing.assert_array_equal(other.grid(), np.eye(70, dtype=bool))
            once_more = copied(area)
            other.clear(0, 0, 70, 70)
            self.assertEqual(area, once_more)
            where = words_of(other)
            other.paint(1, 1, 2, 2)
            self.assertEqual(words_of(other), where)  # its own by now
            self.assertTrue(area.grid()[5, :9].all())

    def test_pickled_cells_stay(self):
        """Cells that a pickle is still to read aren't changed in place."""
        area = clearmap.Map(np.eye(70, dtype=bool))
        _, (kind, words, size, edge), *_ = area.__reduce__()
        area.paint(0, 0, 70, 70)
        made = clearmap.carried.rebuilt(kind, words, size, edge)
        np.testing.assert_array_equal(made.grid(), np.eye(70, dtype=bool))


class Readers(unittest.TestCase):
    def test_a_reader_keeps_its_cells(self):
        area = clearmap.Map(np.eye(70, dtype=bool))
        with Reading(area) as cells:
            area.paint(0, 0, 70, 70)
            np.testing.assert_array_equal(
                clearmap.maps.unpacked(cells.memory, 0, 70), np.eye(70, dtype=bool)
            )
            self.assertTrue(area.grid().all())
            where = words_of(area)
            area.clear(0, 0, 9, 9)  # of the new cells, which nobody reads
            self.assertEqual(words_of(area), where)
        self.assertEqual(cells.readers, [])

    def test_a_reader_waits_for_a_painter(self):
        """Of another thread, whose change isn't done."""
        area, told, began = clearmap.Map(np.eye(70, dtype=bool)), [], threading.Event()

        def work(cells):
            began.set()
            time.sleep(0.3)
            held_paint(cells)

        def held_paint(cells):
            library.check(library.quick().clearmap_paint(*cells.where, 0, 0, 70, 70))

        painter = threading.Thread(target=held.change, args=(area, work))
        painter.start()
        began.wait(10)
        told.append(area.at(5, 9))  # one call waits for nobody
        self.assertTrue(area.grid().all())
        painter.join()
        self.assertEqual(told, [(8, (7, 7))])
        self.assertEqual(area._held.painter, held.NOBODY)

    def test_a_handler_reads_in_a_change(self):
        """A signal's handler, in the thread that paints: it waits for nobody."""
        area, told = clearmap.Map(np.eye(70, dtype=bool)), []
        old = signal.signal(signal.SIGALRM, lambda *_: told.append(area.grid().sum()))

        def work(_):
            os.kill(os.getpid(), signal.SIGALRM)
            for _ in range(1000):
                pass

        try:
            held.change(area, work)
        finally:
            signal.signal(signal.SIGALRM, old)
        self.assertEqual(told, [70])

    def test_a_change_that_fails(self):
        """Leaves the map as it was, and its lock free."""
        area = clearmap.Map(np.eye(70, dtype=bool))

        def fails(_):
            raise MemoryError

        for in_place in (True, False):
            self.assertRaises(MemoryError, held.change, area, fails, in_place)
            self.assertEqual(area._held.painter, held.NOBODY)
            np.testing.assert_array_equal(area.grid(), np.eye(70, dtype=bool))
        area.paint(0, 0, 1, 1)

    def test_many_readers_and_painters(self):
        """Each answer is of one of the maps that there were, and no reader stays."""
        area, faults, done = clearmap.Map(np.zeros((130, 190), bool)), [], threading.Event()
        robot = clearmap.Footprint([(40, 40), (-40, 40), (-40, -40), (40, -40)])

        def reads(kind):
            while not done.is_set():
                if kind == 0:
                    full = area.grid()[30:99].sum()
                elif kind == 1:
                    full = 69 * 150 if robot.hits(area, 95, 65, 0.3) else 0
                else:
                    told = area.at_many(np.arange(20, 170), 60).distances
                    full = 69 * 150 if (told == 0).all() else 0 if (told > 0).all() else 1
                if full not in (0, 69 * 150):
                    faults.append((kind, full))

        def paints():
            for _ in range(300):
                area.paint(20, 30, 170, 99)
                area.clear(20, 30, 170, 99)

        readers = [threading.Thread(target=reads, args=(kind,)) for kind in range(3)]
        painters = [threading.Thread(target=paints)]
        for thread in readers + painters:
            thread.start()
        painters[0].join()
        done.set()
        for thread in readers:
            thread.join()
        self.assertEqual(faults, [])
        self.assertEqual((area._held.readers, area.grid().any()), ([], False))

    def test_a_child_has_its_own_turn(self):
        """Forked while another thread reads, and while one paints."""
        area, began, done = clearmap.Map(np.eye(70, dtype=bool)), threading.Event(), threading.Event()

        def reads():
            with Reading(area):
                began.set()
                done.wait(20)

        def paints():
            held.change(area, lambda _: (began.set(), done.wait(20)))

        for other in (reads, paints):
            began.clear(), done.clear()
            thread = threading.Thread(target=other)
            thread.start()
            began.wait(10)
            child = os.fork()
            if child == 0:
                area.paint(0, 0, 70, 9)
                is_right = area.grid()[:9].all() and not area.grid()[9:].all()
                is_right = is_right and area.at_many([3], [3]).distances[0] == 0
                os._exit(0 if is_right else 1)
            self.assertEqual(os.waitpid(child, 0)[1], 0)
            done.set()
            thread.join()


class WithoutALock(unittest.TestCase):
    def test_each_change_copies(self):
        """Where the interpreter has no lock."""
        area = clearmap.Map(np.zeros((9, 9), bool))
        with unittest.mock.patch.object(held, "HAS_LOCK", False):
            where = words_of(area)
            area.paint(0, 0, 1, 1)
            self.assertNotEqual(words_of(area), where)


if __name__ == "__main__":
    unittest.main()
