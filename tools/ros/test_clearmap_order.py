#!/usr/bin/env python3
"""Tests of the order of maps and updates, with a clock made by hand. No ROS is wanted."""
import pathlib
import random
import sys
import threading
import unittest

HERE = pathlib.Path(__file__).resolve().parent
sys.path[:0] = [str(HERE), str(HERE.parent), str(HERE.parent.parent / "clients/python")]

import clearmap_grid as grids
import clearmap_order as orders
from clearmap_ros import Frame, RosError

SECOND = orders.SECOND
PLACE = grids.Place(Frame(4, 1, 1, 0, 0))
STAMPS = "its stamp doesn't tell"
FORGOTTEN = "isn't kept any more"


def row(digits):
    """A map of one row."""
    return grids.Grid(len(digits), 1, bytes(map(int, digits)))


def update(stamp, column, digits):
    """An update of its cells from a column on."""
    cells = bytes(map(int, digits))
    stamp = int(stamp * SECOND)
    return orders.Update(stamp, (column, 0), (len(cells), 1), cells, bytes(len(cells)))


class Orders(unittest.TestCase):
    def order(self):
        self.now = 100.0
        return orders.Order(lambda: self.now)

    def test_a_map_after_its_updates(self):
        """Updates of these stamps, columns and cells, then a map of a stamp: what it becomes, and
        what is doubted."""
        for updates, stamp, wanted, doubt in (
            ((), 5, "0000", ""),
            (((6, 1, "1"),), 5, "0100", ""),  # published after the map, and came before it
            (((4, 1, "1"),), 5, "0000", ""),  # before it
            (((6, 1, "1"), (7, 1, "0")), 5, "0000", ""),  # in their order
            (((4, 0, "1"), (6, 3, "1")), 5, "0001", ""),
            (((5, 1, "1"),), 5, "0000", STAMPS),
            (((5, 1, "0"),), 5, "0000", ""),  # the map has it, whichever was first
            (((0, 1, "1"),), 5, "0000", STAMPS),
            (((6, 1, "1"),), 0, "0000", STAMPS),
            (((0, 1, "1"),), 0, "0000", STAMPS),
            (((0, 1, "00"),), 0, "0000", ""),
            (((6, 3, "11"),), 5, "0000", "isn't wholly on it"),
            (((4, 3, "11"),), 5, "0000", ""),  # of a map before
            (((0, 3, "11"),), 5, "0000", ""),
        ):
            with self.subTest(updates=updates, stamp=stamp):
                order = self.order()
                for words in updates:
                    self.assertFalse(order.is_in_map(update(*words)))
                grid, place, said = order.with_newer(stamp * SECOND, row("0000"), PLACE)
                self.assertEqual((grid, place), (row(wanted), PLACE))
                self.assertIn(doubt, said)
                self.assertEqual(bool(doubt), bool(said))

    def test_an_update_after_its_map(self):
        """The stamps of a map and of an update that comes after it: whether the map has it."""
        for stamp, later, wanted in ((5, 6, False), (5, 5, False), (5, 4, True), (0, 4, False), (5, 0, False)):
            order = self.order()
            order.with_newer(stamp * SECOND, row("0000"), PLACE)
            self.assertEqual(order.is_in_map(update(later, 0, "1")), wanted, (stamp, later))
            self.assertEqual(order.newest, max(stamp, 0 if wanted else later) * SECOND)
        order.with_newer(50 * SECOND, row("0000"), PLACE)
        with self.assertRaisesRegex(RosError, "10.5 s before the last map's"):
            order.is_in_map(update(39.5, 0, "1"))

    def test_several_maps(self):
        """An update is kept for each map that is older, and no longer than some seconds."""
        order = self.order()
        order.is_in_map(update(20, 1, "1"))
        for stamp, wanted in ((10, "0100"), (11, "0100"), (20.5, "0000"), (12, "0000")):
            grid, _, said = order.with_newer(int(stamp * SECOND), row("0000"), PLACE)
            self.assertEqual((grid, said), (row(wanted), ""), stamp)
        order.is_in_map(update(30, 1, "1"))
        self.now += orders.KEPT + 1
        grid, _, said = order.with_newer(29 * SECOND, row("0000"), PLACE)
        self.assertRegex(said, FORGOTTEN)
        self.assertEqual(order.with_newer(29 * SECOND, row("0000"), PLACE)[2], "")
        order.is_in_map(update(0, 1, "1"))  # without stamps, an old one was before the map
        self.now += orders.KEPT + 1
        self.assertEqual(order.with_newer(0, row("0000"), PLACE)[2], "")

    def test_any_interleaving(self):
        """A topic of stamped maps and updates, which come in any order between the two connections:
        what is told last is the topic's map, or it is doubted."""
        draw = random.Random(86)
        for _ in range(2000):
            truth, published = "0000", ([], [])
            for stamp in range(1, draw.randint(2, 9)):
                if draw.random() < 0.4 or stamp == 1:
                    truth = "".join(draw.choice("01") for _ in range(4))
                    published[0].append((stamp, truth))
                else:
                    x = draw.randrange(4)
                    digit = draw.choice("01")
                    truth = truth[:x] + digit + truth[x + 1 :]
                    published[1].append(update(stamp, x, digit))
            maps, updates = (list(it) for it in published)
            order, grid = self.order(), None
            while maps or updates:
                if maps and (not updates or draw.random() < 0.5):
                    stamp, digits = maps.pop(0)
                    grid, _, doubt = order.with_newer(stamp * SECOND, row(digits), PLACE)
                    self.assertEqual(doubt, "")
                else:
                    part = updates.pop(0)
                    if not order.is_in_map(part) and grid is not None:
                        grid, _ = part.applied(grid, PLACE)
            self.assertEqual(grid, row(truth), published)


class Queue(unittest.TestCase):
    def test_what_waits(self):
        waiting = orders.Waiting()
        for put, said in (
            (waiting.put_update, 1), (waiting.put_map, 2), (waiting.put_plan, 3),
            (waiting.put_update, 4), (waiting.put_map, 5), (waiting.put_plan, 6),
        ):  # fmt: skip
            put(said)
        said = [(orders.UPDATE, 1), (orders.UPDATE, 4), (orders.MAP, 5)]
        self.assertEqual(waiting.taken(), (said, [3, 6]))
        for number in range(orders.MOST_PLANS + 2):
            waiting.put_plan(number)
        self.assertEqual(waiting.taken(), ([], list(range(2, orders.MOST_PLANS + 2))))

    def test_too_many_updates(self):
        """What is lost is told."""
        waiting = orders.Waiting()
        waiting.put_map("map")
        for number in range(orders.MOST_UPDATES + 1):
            waiting.put_update(number)
        last = (orders.UPDATE, orders.MOST_UPDATES)
        self.assertEqual(waiting.taken(), ([(orders.MAP, "map"), (orders.LOST, None), last], []))

    def test_a_thread_waits(self):
        waiting, taken = orders.Waiting(), []
        thread = threading.Thread(target=lambda: taken.append(waiting.taken()))
        thread.start()
        waiting.put_plan(1)
        thread.join(20)
        self.assertEqual(taken, [([], [1])])


if __name__ == "__main__":
    unittest.main()
