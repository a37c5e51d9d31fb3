#!/usr/bin/env python3
"""Tests of clearmap_grid.py against small grids made by hand, and of clearmap_feed.py with the
built program, which CLEARMAP names. No ROS is wanted."""
import math
import pathlib
import random
import subprocess
import sys
import threading
import time
import unittest
from fractions import Fraction
from unittest import mock

HERE = pathlib.Path(__file__).resolve().parent
sys.path[:0] = [str(HERE), str(HERE.parent), str(HERE.parent.parent / "clients/python")]

import clearmap
import clearmap_feed as feeds
import clearmap_grid as grids
from clearmap_ros import Frame, RosError
from served import PROGRAM, Served

FRAME = Frame(6, 4, Fraction(1, 2), Fraction(-1), Fraction(-2))
PLACE = feeds.Place(FRAME)
CORNER = 5, 3, (1, 1), b"\1", b"\0"  # an update
SINGLE = 0.05000000074505806  # 0.05 as a message of 32 bits has it


def grid(*rows):
    """A grid of rows of 0 and 1, from the top."""
    return grids.Grid(len(rows[0]), len(rows), bytes(int(digit) for row in rows for digit in row))


POST = grid("000000", "001000", "000000", "000000")


class Grids(unittest.TestCase):
    def test_thresholds(self):
        values = [-1, 0, 19, 20, 65, 66, 100, 101, 127, -2, -128]
        for unknown_is_free, wanted in ((False, [1, 0, 0, 1, 1, 1, 1, 1, 1, 1, 1]), (True, [0, 0, 0, 0, 0, 1, 1, 1, 1, 1, 1])):
            table = grids.Reading(0.65, 0.196, unknown_is_free).table()
            self.assertEqual(list(grids.cells_of(values, len(values), 1, table)), wanted)
        self.assertRaisesRegex(RosError, "thresholds", grids.Reading(0.1, 0.2).table)
        self.assertRaisesRegex(RosError, "no number", grids.Reading("high").table)

    def test_rows_begin_at_the_top(self):
        for text in ("false", "true", ""):
            with self.assertRaisesRegex(RosError, "is no unknown_is_free: true or false"):
                grids.Reading(unknown_is_free=text).table()
        table = grids.Reading().table()
        self.assertEqual(grids.cells_of((100, 0, 0, 0, 0, 100), 3, 2, table), bytes([0, 0, 1, 1, 0, 0]))
        self.assertEqual(grids.cells_of(bytes([100, 255, 0]), 3, 1, table), bytes([1, 1, 0]))
        self.assertRaisesRegex(RosError, "5 values, where 3 by 2 cells are told", grids.cells_of, (0,) * 5, 3, 2, table)

    def test_changed(self):
        self.assertIsNone(POST.changed(POST))
        self.assertEqual(POST.changed(grid("000000", "000000", "000000", "000001")), grids.Area(2, 1, 6, 4))
        self.assertEqual(POST.changed(grid("100000", "001000", "000000", "000000")), grids.Area(0, 0, 1, 1))

    def test_changed_of_random_grids(self):
        draw = random.Random(7)
        for _ in range(300):
            width, height = draw.randint(1, 20), draw.randint(1, 20)
            old = bytearray(draw.randint(0, 1) for _ in range(width * height))
            new = bytearray(old)
            places = {draw.randrange(width * height) for _ in range(draw.randint(0, 4))}
            for place in places:
                new[place] ^= 1
            area = grids.Grid(width, height, bytes(old)).changed(grids.Grid(width, height, bytes(new)))
            xs, ys = [place % width for place in places], [place // width for place in places]
            self.assertEqual(area, grids.Area(min(xs), min(ys), max(xs) + 1, max(ys) + 1) if places else None)

    def test_images(self):
        self.assertEqual(POST.pbm(), b"P4\n6 4\n\x00\x20\x00\x00")
        self.assertEqual(POST.pbm(grids.Area(1, 1, 4, 3)), b"P4\n3 2\n\x40\x00")
        wide = grid("1" + "0" * 8 + "1")
        self.assertEqual(wide.pbm(), b"P4\n10 1\n\x80\x40")
        self.assertEqual(grids.grid_of_dump(b"P1\n6 4\n000000\n001000\n000000\n000000\n"), POST)
        self.assertEqual(grids.grid_of_dump(b"P1\n3 1\n01\n1\n"), grid("011"))

    def test_what_others_painted(self):
        """It is what is served and wasn't in the grid before."""
        before, served = grid("0011"), grid("0110")
        self.assertEqual(grid("1001").with_others(before, served), grid("1101"))
        self.assertTrue(grid("0110").is_within(grid("1110")))
        self.assertFalse(grid("0110").is_within(grid("1010")))
        self.assertFalse(grid("01", "10").is_within(grid("0110")))

    def test_updates(self):
        low = POST.updated(1, 0, 2, 1, bytes([1, 1]))
        self.assertEqual(low, grid("000000", "001000", "000000", "011000"))
        self.assertEqual(low.updated(0, 2, 3, 2, bytes(6)), grid("000000", "000000", "000000", "011000"))
        for place in ((5, 0, 2, 1), (0, 4, 1, 1), (-1, 0, 1, 1), (0, -1, 1, 1)):
            self.assertRaisesRegex(RosError, "isn't wholly on the map of 6 by 4", POST.updated, *place, bytes(2))

    def test_frames(self):
        frame = grids.frame_of(400, 300, SINGLE, (-10.0, -7.5), (0.0, 0.0, 0.0))
        self.assertEqual(frame, Frame(400, 300, Fraction(1, 20), Fraction(-10), Fraction(-15, 2)))
        self.assertEqual(grids.decimal_of(0.02500000037252903), Fraction(1, 40))
        self.assertEqual(grids.decimal_of(0.30000001192092896), Fraction(3, 10))
        rows = (
            ((0, 300, 0.05), (0, 0), (0, 0, 0), "0 by 300 cells"),
            ((400, 4097, 0.05), (0, 0), (0, 0, 0), "400 by 4097 cells"),
            ((400, 300, 0.0), (0, 0), (0, 0, 0), "resolution"),
            ((400, 300, math.nan), (0, 0), (0, 0, 0), "resolution"),
            ((400, 300, math.inf), (0, 0), (0, 0, 0), "resolution"),
            ((400, 300, 0.05), (math.nan, 0), (0, 0, 0), "no number"),
            ((400, 300, 0.05), (0, 0), (0, 0, 0.38), "turned"),
            ((400, 300, 0.05), (0, 0), (0, 0, math.nan), "turned"),
        )
        for size, origin, turn, sentence in rows:
            self.assertRaisesRegex(RosError, sentence, grids.frame_of, *size, origin, turn)


def dump_of(port):
    """The newest version of a server, and its number."""
    with clearmap.Client(port) as client, client.pin() as pinned:
        return pinned.version, grids.grid_of_dump(pinned.dump())


class Feeds(unittest.TestCase):
    def feed(self, *words, **settings):
        feed = feeds.Feed(*words, **settings)
        self.addCleanup(feed.close)
        return feed

    def served(self, image, *words, port=0):
        served = Served(image, *words, port=port)
        self.addCleanup(served.end)
        return served

    def test_a_server_of_its_own(self):
        feed = self.feed(program=PROGRAM)
        self.assertRaisesRegex(RosError, "no map has come", feed.clearance, [(0, 0)])
        self.assertRaisesRegex(RosError, "before its map", feed.update, 0, 0, (1, 1), b"\1", b"\0")
        self.assertEqual(feed.put(POST, PLACE), "nothing changed")
        self.assertEqual(dump_of(feed.port), (0, POST))
        wall = grid("000000", "001000", "001000", "001000")
        self.assertEqual(feed.put(wall, PLACE), "version 1: 2 cells of columns 2 to 2, rows 2 to 3")
        self.assertEqual(feed.put(wall, PLACE), "nothing changed")
        self.assertEqual(feed.update(*CORNER), "version 2: 1 cells of columns 5 to 5, rows 0 to 0")
        self.assertEqual(dump_of(feed.port), (2, grid("000001", "001000", "001000", "001000")))
        feed._server.kill()
        feed._server.wait()
        self.assertRaisesRegex(clearmap.ConnectionLost, "the next map starts another", feed.clearance, [(-1, -2)])
        self.assertEqual(feed.put(POST, PLACE), "nothing changed")
        self.assertEqual(dump_of(feed.port), (0, POST))

    def test_a_map_that_grows(self):
        """A server of one's own is started anew with it; plans are answered by the grown map alone,
        and a server that was given keeps its map."""
        feed = self.feed(program=PROGRAM)
        feed.put(POST, PLACE)
        feed.update(*CORNER)
        first = feed._server
        wide = grid("0000000", "0010000", "0000000", "0000000", "0000000")
        frame = Frame(7, 5, Fraction(1, 2), Fraction(-1), Fraction(-5, 2))
        self.assertEqual(feed.put(wide, feeds.Place(frame)), "nothing changed")
        self.assertIsNotNone(first.poll())
        self.assertEqual(dump_of(feed.port), (0, wide))
        found = feed.clearance([(2.3, -2.4)])
        self.assertEqual((found.version, found.cell), (0, (2.25, -2.25)))
        self.assertEqual(feed.put(POST, PLACE), "nothing changed")
        self.assertEqual(dump_of(feed.port), (0, POST))
        self.assertEqual(feed.update(*CORNER)[:10], "version 1:")
        feed.program = "/nowhere/clearmap"
        self.assertRaisesRegex(RosError, "can't be run", feed.put, wide, feeds.Place(frame))
        self.assertRaises(clearmap.ConnectionLost, feed.clearance, [(-0.9, -1.9)])
        feed.program = PROGRAM
        feed.put(wide, feeds.Place(frame))
        self.assertEqual(dump_of(feed.port), (0, wide))

    def test_the_process_is_killed(self):
        """Its server ends with it, but not with the thread that put the map."""
        lines = (
            "import sys, threading, time",
            f"sys.path[:0] = {sys.path[:3]!r}",
            "import clearmap_feed as feeds, clearmap_grid as grids",
            "from clearmap import Frame",
            f"feed = feeds.Feed(program={PROGRAM!r})",
            "place = feeds.Place(Frame(1, 1, 1, 0, 0))",
            "put = threading.Thread(target=feed.put, args=(grids.Grid(1, 1, b'0'), place))",
            "put.start(), put.join()",
            "print(feed.port, flush=True), time.sleep(600)",
        )
        words = [sys.executable, "-c", "\n".join(lines)]
        with subprocess.Popen(words, stdout=subprocess.PIPE) as process:
            self.addCleanup(process.kill)
            port = int(process.stdout.readline())
            time.sleep(0.3)
            clearmap.Client(port).close()
            process.kill()
        deadline = time.monotonic() + 20
        with self.assertRaises(clearmap.ConnectionLost):
            while time.monotonic() < deadline:
                clearmap.Client(port).close()
                time.sleep(0.05)

    def test_plans(self):
        feed = self.feed(program=PROGRAM)
        feed.put(POST, PLACE)
        # the post's middle is at (0.25, -0.75); the plan goes along the lowest row, two rows below
        # it
        found = feed.clearance([(-0.9, -1.9), (1.9, -1.9)])
        self.assertEqual((found.version, found.metres, found.cell, found.obstacle), (0, 1.0, (0.25, -1.75), (0.25, -0.75)))
        self.assertAlmostEqual(found.free_metres, 1.0 - math.sqrt(2) / 2)
        self.assertRaisesRegex(RosError, "isn't on the map", feed.clearance, [(-0.9, -1.9), (3.0, -1.9)])
        self.assertRaisesRegex(RosError, "has no point", feed.clearance, [])
        feed.put(grid("000000", "000000", "000000", "000000"), PLACE)
        self.assertEqual(feed.clearance([(0, 0 - 0.1)]), feeds.Clearance(1, math.inf, math.inf))
        long = [(-0.9 + 2.8 * (turn % 2), -1.9 + 0.5 * (turn // 2 % 2)) for turn in range(3000)]
        feed.put(POST, PLACE)
        self.assertEqual(feed.clearance(long).metres, 0.5)

    def test_walls(self):
        feed = self.feed(program=PROGRAM, edge="wall")
        feed.put(grid("000000", "000000", "000000", "000000"), PLACE)
        # the obstacle is the cell of the frame to the left of the map's lower left cell
        found = feed.clearance([(-0.9, -1.9), (-0.9, -1.9)])
        self.assertEqual((found.metres, found.cell, found.obstacle), (0.5, (-0.75, -1.75), (-1.25, -1.75)))

    def test_a_given_server(self):
        served = self.served(b"P1\n6 4\n000000\n000000\n000000\n000000\n")
        feed = self.feed(served.port)
        with clearmap.Client(served.port) as other:
            other.paint(5, 0, 6, 1)
            other.publish()
            said = "version 2: 2 cells of columns 2 to 5, rows 0 to 1"
            self.assertEqual(feed.put(POST, PLACE), said)
            other.paint(5, 0, 6, 1)
            other.publish()
        # what another painter published stays, where the topic's map doesn't change
        newer = grid("000000", "001000", "000000", "100000")
        said = "version 4: 1 cells of columns 0 to 0, rows 3 to 3"
        self.assertEqual(feed.put(newer, PLACE), said)
        self.assertEqual(dump_of(served.port), (4, grid("000001", "001000", "000000", "100000")))
        served.end()
        self.assertRaises(clearmap.ConnectionLost, feed.put, POST, PLACE)
        again = self.served(b"P1\n6 4\n000000\n000000\n000000\n000000\n", port=served.port)
        self.assertEqual(feed.put(POST, PLACE), "version 1: 1 cells of columns 2 to 2, rows 1 to 1")
        self.assertEqual(dump_of(again.port), (1, POST))

    def test_full_versions_and_a_full_log(self):
        served = self.served(b"P1\n6 4\n000000\n000000\n000000\n000000\n", "--versions", "2", "--log", "100")
        feed = self.feed(served.port, checkpoints=True)
        for turn in range(100):
            feed.put(POST if turn % 2 == 0 else grid("000000", "000000", "000000", "000000"), PLACE)
        self.assertEqual(dump_of(served.port)[0], 100)
        plain = self.served(b"P1\n6 4\n000000\n000000\n000000\n000000\n", "--log", "1")
        self.assertRaises(clearmap.LogFull, self.feed(plain.port).put, POST, PLACE)

    def test_another_map(self):
        """No metres are told of a map that isn't of the size of the topic's."""
        served = self.served(POST.pbm())
        feed = self.feed(served.port)
        plan = [(-0.9, -1.9), (1.9, -1.9)]
        feed.put(POST, PLACE)
        self.assertEqual(feed.clearance(plan).metres, 1.0)
        served.end()
        other = self.served(b"P1\n8 8\n" + b"0" * 63 + b"1", port=served.port)
        self.assertRaisesRegex(clearmap.WrongMap, "8 by 8 cells, and 6 by 4", feed.clearance, plan)
        sentence = "6 by 4 cells, and that of the server 8 by 8: it isn't put"
        self.assertRaisesRegex(RosError, sentence, feed.put, POST, PLACE)
        self.assertRaises(clearmap.WrongMap, feed.clearance, plan)
        other.end()
        self.served(POST.pbm(), port=served.port)
        self.assertEqual(feed.clearance(plan).metres, 1.0)

    def test_a_refused_publish(self):
        """A draft that has a map whose publish was refused gets the next one whole."""
        blank = grid("000000", "000000", "000000", "000000")
        more = grid("100000", "001000", "000000", "000000")
        for first, second, third in ((POST, blank, more), (POST, more, blank), (blank, POST, more)):
            for again in (True, False):
                served = self.served(blank.pbm(), "--log", "3")
                feed = self.feed(served.port)
                with clearmap.Client(served.port) as other:
                    if first is blank:
                        other.paint(0, 0, 1, 1), other.clear(0, 0, 1, 1)
                    feed.put(first, PLACE)
                    self.assertRaises(clearmap.LogFull, feed.put, second, PLACE)
                    if again:
                        self.assertEqual(feed.put(first, PLACE), "nothing changed")
                    for newer in (third, first):
                        other.checkpoint()
                        feed.put(newer, PLACE)
                        self.assertEqual(dump_of(served.port)[1], newer)

    def test_a_draft_of_an_earlier_node(self):
        """Its publish was refused, and the node was started again."""
        served = self.served(POST.pbm(), "--log", "2")
        moved = grid("100000", "000000", "000000", "000000")
        with clearmap.Client(served.port) as other:
            other.paint(5, 3, 6, 4), other.clear(5, 3, 6, 4)
            other.checkpoint()
            other.collect()
            self.assertRaises(clearmap.LogFull, self.feed(served.port).put, moved, PLACE)
            for _ in range(2):
                other.checkpoint()
            feed = self.feed(served.port, checkpoints=True)
            self.assertEqual(feed.put(POST, PLACE), "nothing changed")
            feed.update(*CORNER)
        self.assertEqual(dump_of(served.port)[1], grid("000001", "001000", "000000", "000000"))

    def test_a_publish_without_a_reply(self):
        """The server ends after a stamp, and the one at its port has the same map."""
        served = self.served(POST.pbm())
        feed = self.feed(served.port)
        feed.put(POST, PLACE)
        moved, cut = grid("100000", "000000", "000000", "000000"), clearmap.ConnectionLost("cut")
        with mock.patch.object(clearmap.Client, "publish", side_effect=cut):
            self.assertRaises(clearmap.ConnectionLost, feed.put, moved, PLACE)
        self.assertEqual(feed.put(POST, PLACE), "nothing changed")
        with clearmap.Client(served.port) as other:
            other.publish()
        self.assertEqual(dump_of(served.port), (1, POST))

    def between(self, other, act):
        """Has another client act between a stamp of a feed and its publish."""
        publish = clearmap.Client.publish

        def late(client):
            if client is not other:
                act()
            return publish(client)

        patch = mock.patch.object(clearmap.Client, "publish", late)
        patch.start()
        self.addCleanup(patch.stop)
        return patch

    def test_others_between_a_stamp_and_its_publish(self):
        """What others do to the draft between the two, or before them: what was put is there, and
        what others painted stays."""
        wall = grid("000000", "001000", "001000", "001000")
        paint = grid("100000", "001000", "001000", "001000")
        for act, before, wanted in (
            (lambda it: it.revert(), False, wall),
            (lambda it: it.clear(2, 2, 3, 4), False, wall),
            (lambda it: it.clear(0, 0, 6, 4), False, wall),
            (lambda it: it.clear(2, 1, 3, 2), True, wall),  # which the stamp doesn't cover
            (lambda it: (it.clear(0, 0, 6, 4), it.publish()), False, wall),
            (lambda it: it.publish(), False, wall),
            (lambda it: (it.publish(), it.collect(), it.checkpoint()), False, wall),
            (lambda it: it.paint(0, 0, 1, 1), False, paint),
            (lambda it: (it.paint(0, 0, 1, 1), it.publish(), it.clear(2, 1, 3, 2)), False, paint),
            (lambda it: (it.paint(0, 0, 1, 1), it.publish(), it.clear(2, 1, 3, 2)), True, paint),
        ):
            served = self.served(POST.pbm())
            feed, turns = self.feed(served.port), []
            feed.put(POST, PLACE)
            feed.update(*CORNER)
            feed.put(POST, PLACE)
            with clearmap.Client(served.port) as other:
                if before:
                    act(other)
                else:
                    patch = self.between(other, lambda: turns or turns.append(act(other)))
                feed.put(wall, PLACE)
                self.assertEqual(dump_of(served.port)[1], wanted)
                if not before:
                    patch.stop()
                self.assertEqual(feed.put(wall, PLACE), "nothing changed")
                self.assertEqual(feed.clearance([(0.25, -0.75)]).metres, 0.0)
                feed.put(POST, PLACE)
                rows = [bytes([*row]) for row in (wanted.row(0, 0, 6), b"\0\0\1\0\0\0")]
                self.assertEqual(dump_of(served.port)[1].cells[:12], b"".join(rows))

    def test_others_that_never_rest(self):
        """A map that others take back each time isn't believed to be there."""
        served = self.served(grid("000000", "000000", "000000", "000000").pbm())
        feed = self.feed(served.port)
        with clearmap.Client(served.port) as other:
            patch = self.between(other, other.revert)
            self.assertRaisesRegex(RosError, "others take back", feed.put, POST, PLACE)
            self.assertRaisesRegex(RosError, "others take back", feed.clearance, [(0.25, -0.75)])
            patch.stop()
            self.assertEqual(feed.clearance([(0.25, -0.75)]).metres, 0.0)
        self.assertEqual(dump_of(served.port)[1], POST)

    def test_a_storm_of_reverts_and_clears(self):
        """After each put that succeeds its obstacle is on the server, and a plan there hits it."""
        served = self.served(b"P1\n6 4\n" + b"000000\n" * 4, "--versions", "8")
        feed, ends = self.feed(served.port, checkpoints=True), threading.Event()

        def storm():
            with clearmap.Client(served.port, checkpoints=True) as other:
                while not ends.is_set():
                    other.revert()
                    other.clear(0, 0, 6, 4)
                    time.sleep(0.0005)

        other = threading.Thread(target=storm)
        other.start()
        try:
            wrong, put, draw = [], 0, random.Random(5)
            for turn in range(400):
                at = draw.randrange(24)
                obstacle = grids.Grid(6, 4, bytes(int(cell == at) for cell in range(24)))
                try:
                    feed.put(obstacle, PLACE)
                except RosError:
                    continue
                put += 1
                metres = feed.clearance([FRAME.centre((at % 6, at // 6))]).metres
                if metres != 0 or not obstacle.is_within(dump_of(served.port)[1]):
                    wrong.append((turn, metres))
        finally:
            ends.set()
            other.join()
        self.assertEqual(wrong, [])
        self.assertGreater(put, 100)

    def test_updates_that_came_meanwhile(self):
        """An update that couldn't be put is put with the next, and before a plan is answered."""
        served = self.served(POST.pbm())
        feed = self.feed(served.port)
        feed.put(POST, PLACE)
        served.end()
        self.assertRaises(clearmap.ConnectionLost, feed.update, *CORNER)
        again = self.served(POST.pbm(), port=served.port)
        said = "version 1: 2 cells of columns 0 to 5, rows 0 to 0"
        self.assertEqual(feed.update(0, 3, (1, 1), b"\1", b"\0"), said)
        self.assertEqual(dump_of(again.port), (1, grid("100001", "001000", "000000", "000000")))
        again.end()
        self.assertRaises(clearmap.ConnectionLost, feed.update, 1, 3, (1, 1), b"\1", b"\0")
        last = self.served(POST.pbm(), port=served.port)
        found = feed.clearance([(-0.25, -0.25)])
        self.assertEqual((found.version, found.metres), (1, 0.0))
        self.assertEqual(dump_of(last.port)[1], grid("110001", "001000", "000000", "000000"))

    def test_plans_over_a_map_that_is_not_there(self):
        """They have no answer: not after a map that was refused, nor after what can't be read."""
        feed, plan = self.feed(self.served(POST.pbm()).port), [(-0.9, -1.9)]
        feed.put(POST, PLACE)
        small = feeds.Place(Frame(2, 2, Fraction(1, 2), Fraction(-1), Fraction(-2)))
        self.assertRaises(RosError, feed.put, grid("00", "00"), small)
        self.assertRaises(clearmap.WrongMap, feed.clearance, plan)
        feed.put(POST, PLACE)
        self.assertEqual(feed.clearance(plan).version, 0)
        outside = 6, 0, (1, 1), b"\1", b"\0"
        refusals = (feed.refuse, lambda: self.assertRaises(RosError, feed.update, *outside))
        for refuse in refusals:
            refuse()
            self.assertRaisesRegex(RosError, "wasn't taken", feed.clearance, plan)
            self.assertRaisesRegex(RosError, "the next map is", feed.update, *CORNER)
            feed.put(POST, PLACE)
            self.assertEqual(feed.clearance(plan).version, 0)

    def test_a_server_that_was_restarted(self):
        """What other painters did to it stays, unless an obstacle of the topic's map is missing."""
        served = self.served(POST.pbm())
        feed, plan = self.feed(served.port), [(-0.9, -1.9)]
        feed.put(POST, PLACE)
        served.end()
        more = grid("000001", "001000", "000000", "000000")
        same = self.served(more.pbm(), port=served.port)
        self.assertEqual(feed.clearance(plan).version, 0)
        self.assertEqual(dump_of(same.port), (0, more))
        same.end()
        less = self.served(grid("000001", "000000", "000000", "000000").pbm(), port=served.port)
        self.assertEqual(feed.clearance(plan).version, 1)
        self.assertEqual(dump_of(less.port), (1, POST))

    def test_frames_of_plans(self):
        feed = self.feed(program=PROGRAM)
        feed.put(POST, feeds.Place(FRAME, "map"))
        for name in ("odom", ""):
            with self.assertRaisesRegex(RosError, f"frame '{name}', and the map in 'map'"):
                feed.clearance([(0, 0)], name)
        self.assertEqual(feed.clearance([(-0.9, -1.9)], "map"), feed.clearance([(-0.9, -1.9)]))

    def test_no_server_and_no_program(self):
        served = self.served(POST.pbm())
        served.end()
        put = self.feed(served.port).put
        self.assertRaisesRegex(clearmap.ConnectionLost, "no server at", put, POST, PLACE)
        put = self.feed(program="/nowhere/clearmap").put
        self.assertRaisesRegex(RosError, "can't be run", put, POST, PLACE)
        self.assertRaisesRegex(RosError, "said ''", self.feed(program="/bin/true").put, POST, PLACE)


if __name__ == "__main__":
    unittest.main()
