#!/usr/bin/env python3
"""Tests of what follows a server's versions, with the built server, which CLEARMAP names: against a
search of all obstacles, on maps drawn at random. Needs numpy, and no ROS."""
import pathlib
import random
import sys
import threading
import time
import unittest
from fractions import Fraction
from unittest import mock

HERE = pathlib.Path(__file__).resolve().parent
FOLDERS = HERE, HERE.parent, HERE.parent.parent / "clients/python", HERE.parent / "view"
sys.path[:0] = [str(folder) for folder in FOLDERS]

import numpy

import clearmap
import clearmap_costmap as costmaps
import clearmap_feed as feeds
import clearmap_follow as follow
import clearmap_grid as grids
from clearmap_ros import Frame
from fakes import Fake
from served import PROGRAM, Served
from test_clearmap_costmap import drawn, least_of, squares_of

PATIENCE = 20  # seconds
EMPTY = b"P1\n6 4\n" + b"000000\n" * 4
FRAME = Frame(6, 4, Fraction(1, 2), Fraction(-1), Fraction(-2))
PLACE = feeds.Place(FRAME, "map")


class Following(unittest.TestCase):
    def setUp(self):
        self.shown, self.told = [], []

    def served(self, image=EMPTY, *words, port=0):
        served = Served(image, *words, port=port)
        self.addCleanup(served.end)
        return served

    def follower(self, port=0, place=PLACE, grid=None, pause=0.02):
        """One that isn't started, over a feed that keeps a map."""
        self.feed = feeds.Feed(port, PROGRAM)
        self.addCleanup(self.feed.close)
        if place is not None:
            self.feed.keep(grid, place)
        return follow.Follower(self.feed, pause, self.shown.append, self.told.append)

    def until(self, holds):
        start = time.monotonic()
        while not holds():
            self.assertLess(time.monotonic() - start, PATIENCE)
            time.sleep(0.01)

    def paint(self, port, *cells):
        """Publishes a version for each cell."""
        with clearmap.Client(port) as client:
            for x, y in cells:
                client.paint(x, y, x + 1, y + 1)
                client.publish()

    def test_versions(self):
        """Each version is shown once; of several between two looks, the newest. Random maps agree
        with a search, also with a wall."""
        draw = random.Random(14)
        for turn in range(6):
            self.shown.clear()
            width, height = draw.randint(1, 30), draw.randint(1, 30)
            edge = draw.choice(("open", "wall"))
            cells = drawn(draw, width, height)
            flat = bytes(int(it) for row in cells for it in row)
            served = self.served(grids.Grid(width, height, flat).pbm(), "--edge", edge)
            frame = Frame(width, height, Fraction(1), Fraction(0), Fraction(0))
            follower = self.follower(served.port, feeds.Place(frame))
            for version in (0, 0, 3):
                if version:
                    for _ in range(3):
                        x, y = draw.randrange(width), draw.randrange(height)
                        cells[y][x] = True
                        self.paint(served.port, (x, y))
                follower.look()
                last = self.shown[-1]
                wide = [[edge == "wall"] * (width + 2)]
                framed = [[edge == "wall", *row, edge == "wall"] for row in cells]
                least = least_of([*wide, *framed, *wide])
                wanted = squares_of([row[1:-1] for row in least[1:-1]])
                self.assertEqual(last.version, version)
                self.assertTrue((last.found == wanted).all(), (turn, edge, version))
            self.assertEqual([it.version for it in self.shown], [0, 3])
            served.end()
        self.assertEqual(self.told, [])

    def test_without_the_library(self):
        """Runs of the program are the same, by either edge, with many obstacles and with none; also
        where the border tells nothing."""
        draw = random.Random(15)
        missing = mock.Mock(side_effect=ImportError("there is no library"))
        for turn in range(8):
            edge, share = draw.choice(("open", "wall")), draw.choice((0, 0.02, 0.3))
            width, height = draw.randint(1, 70), draw.randint(1, 30)
            full = draw.random() < 0.3  # the border
            rows = [[draw.random() < share for _ in range(width)] for _ in range(height)]
            cells = numpy.array(rows)
            cells[[0, -1]] |= full
            cells[:, [0, -1]] |= full
            flat = cells.tobytes()
            served = self.served(grids.Grid(width, height, flat).pbm(), "--edge", edge)
            with clearmap.Client(served.port) as client, client.pin() as pinned:
                wanted = clearmap.distances(cells, edge=edge)
                with mock.patch.object(clearmap.Pinned, "distances", missing):
                    found = costmaps.squares_of(pinned, PROGRAM)
                self.assertTrue((found == wanted).all(), (turn, edge, share, full))
                self.assertTrue((costmaps.squares_of(pinned, PROGRAM) == wanted).all())
            served.end()

    def test_neither_library_nor_program(self):
        follower = self.follower(self.served().port)
        follower._squares.keywords["program"] = "/nowhere/clearmap"
        with mock.patch.object(clearmap.Pinned, "distances", side_effect=ImportError("none")):
            follower.look()
            follower.look()
        self.assertEqual((self.shown, len(self.told)), ([], 1))
        self.assertRegex(self.told[0], "there is no costmap yet: clearmap dist can't be run")
        follower.look()
        self.assertEqual([it.version for it in self.shown], [0])

    def test_the_map_lies_elsewhere(self):
        """The same version at another place, or with other unknown cells, is shown again."""
        served = self.served()
        follower = self.follower(served.port)
        follower.look()
        moved = Frame(6, 4, Fraction(1, 2), Fraction(7), Fraction(-2))
        unknown = grids.Grid(6, 4, bytes(23) + b"\1")
        for words in ("map",), ("odom",), ("odom", unknown):
            place = feeds.Place(moved, *words)
            self.feed.keep(None, place)
            follower.look()
            follower.look()
            self.assertEqual((self.shown[-1].place, self.shown[-1].version), (place, 0))
        self.assertEqual(len(self.shown), 4)

    def test_a_reply_that_is_lost(self):
        """A version whose map lies elsewhere, and whose reply never came, isn't shown at the old
        place: it waits until the map is put."""
        served = self.served()
        follower = self.follower(served.port, None)
        moved = feeds.Place(Frame(6, 4, Fraction(1, 2), Fraction(7), Fraction(-2)), "map")
        empty, post = grids.Grid(6, 4, bytes(24)), grids.Grid(6, 4, b"\1" + bytes(23))
        self.feed.put(empty, PLACE)
        follower.look()
        publish = clearmap.Client.publish

        def cut(client):
            publish(client)
            raise clearmap.ConnectionLost("cut")

        away = mock.Mock(side_effect=clearmap.ConnectionLost("away"))
        with mock.patch.object(clearmap.Client, "publish", cut):
            with mock.patch.object(clearmap.Client, "__init__", away):
                self.assertRaises(clearmap.ConnectionLost, self.feed.put, post, moved)
        follower.look()
        follower.look()
        self.assertEqual([(it.version, it.place) for it in self.shown], [(0, PLACE)])
        self.assertEqual(len(self.told), 1)
        self.assertRegex(self.told[0], "stays at version 0: the last map isn't put, so it isn't known")
        self.assertEqual(self.feed.clearance([(7.1, -0.1)]).metres, 0.0)
        follower.look()
        self.assertEqual([(it.version, it.place) for it in self.shown[1:]], [(1, moved)])

    def test_updates(self):
        """What an update doesn't know is kept."""
        feed = feeds.Feed(0, PROGRAM)
        self.addCleanup(feed.close)
        feed.put(grids.Grid(6, 4, bytes(24)), PLACE)
        feed.update(0, 0, (1, 1), b"\1", b"\0")
        self.assertIsNone(feed.place.unknown)
        feed.update(4, 1, (2, 1), b"\1\1", b"\0\1")
        self.assertEqual(feed.place.unknown.cells, bytes(17) + b"\1" + bytes(6))
        feed.update(5, 1, (1, 1), b"\1", b"\0")
        self.assertEqual(feed.place.unknown.cells, bytes(24))

    def test_a_lost_server(self):
        """One line, the old version stays, and another server's version of the same number is shown
        for what it is."""
        served = self.served()
        self.paint(served.port, (0, 0))
        follower = self.follower(served.port)
        follower.start()
        self.until(lambda: self.shown)
        served.end()
        self.until(lambda: self.told)
        time.sleep(0.3)
        self.assertEqual(len(self.told), 1)
        self.assertRegex(self.told[0], "^the costmap stays at version 1: .*; it is tried again$")
        again = self.served(port=served.port)
        self.until(lambda: len(self.shown) == 2)
        self.paint(again.port, (5, 3))
        self.until(lambda: self.shown[-1].version == 1)
        self.assertEqual([int(it.found[0, 0]) for it in (self.shown[0], self.shown[-1])], [0, 34])
        follower.stop()
        again.end()
        time.sleep(0.1)
        self.assertEqual(len(self.told), 1)

    def test_another_server_of_the_same_number(self):
        """Version 0 of a server that took the port between two looks isn't taken for the other's.
        """
        served = self.served()
        follower = self.follower(served.port)
        follower.look()
        served.end()
        self.served(b"P1\n6 4\n" + b"0" * 23 + b"1", port=served.port)
        follower.look()
        self.assertEqual([(it.version, int(it.found[3, 5])) for it in self.shown[1:]], [(0, 0)])
        self.assertEqual(self.told, [])

    def test_no_server_and_another_map(self):
        other = self.served(b"P1\n8 8\n" + b"0" * 64)
        follower = self.follower(other.port)
        for _ in range(3):
            follower.look()
        sentence = "there is no costmap yet: another map: the server's has 8 by 8 cells, and 6 by 4"
        self.assertEqual(len(self.told), 1)
        self.assertRegex(self.told[0], sentence)
        other.end()
        follower.look()
        follower.look()
        self.assertEqual(len(self.told), 2)
        self.assertRegex(self.told[1], "there is no costmap yet: no server at")
        self.served(port=other.port)
        follower.look()
        self.assertEqual([it.version for it in self.shown], [0])

    def test_cut_dumps(self):
        """A server that ends in the middle of a dump, or answers otherwise, is told; nothing of it
        is shown."""
        size = b"OK 0\n", b"OK 3 2 1\n", b"ERR 1 OutOfRange\n", b"ERR 1 OutOfRange\n", b"OK 0\n"
        for dump, told in (
            (b"OK 35\nP1\n6 4\n0000", "the server ended the connection"),
            (b"OK 31\nP1\n6 4\n" + b"2" * 24, "a dump of 6 by 4 cells has other digits"),
            (b"nonsense\n", "nonsense"),
            (b"", "the server ended the connection"),
        ):
            self.told.clear()
            with Fake(*size, b"OK 0\n", dump) as fake:
                follower = self.follower(fake.port)
                follower.look()
            self.assertEqual((self.shown, len(self.told)), ([], 1), dump)
            self.assertRegex(self.told[0], f"^there is no costmap yet: .*{told}")

    def test_a_server_of_its_own(self):
        """It is started with the map that is kept, and anew where it ended; never after the end."""
        grid = grids.Grid(6, 4, b"\1" + bytes(23))
        follower = self.follower(0, PLACE, grid)
        follower.look()
        first = self.feed._server
        self.paint(self.feed.port, (5, 3))
        follower.look()
        first.kill()
        first.wait()
        follower.look()
        self.assertEqual([it.version for it in self.shown], [0, 1, 0])
        self.assertTrue((self.shown[2].found == self.shown[0].found).all())
        second = self.feed._server
        self.feed.close()
        self.assertIsNotNone(second.poll())
        follower.look()
        self.assertIsNone(self.feed._server)
        sentence = "the costmap stays at version 0: the node has left the server"
        self.assertRegex(self.told[-1], sentence)

    def test_what_is_not_shown(self):
        """What can't be shown is told once, by its kind, and shown when it can."""
        follower = self.follower(self.served().port)
        faults = [MemoryError("no room"), MemoryError("no room"), OSError("no master")]

        def show(found):
            if faults:
                raise faults.pop(0)
            self.shown.append(found)

        follower._show = show
        for _ in range(5):
            follower.look()
        self.assertEqual([it.version for it in self.shown], [0])
        words = ("MemoryError no room", "OSError no master")
        sentences = [f"there is no costmap yet: {it}; it is tried again" for it in words]
        self.assertEqual(self.told, sentences)

    def test_before_a_map(self):
        follower = self.follower(self.served().port, None)
        follower.look()
        self.assertEqual((self.shown, self.told), ([], []))

    def test_painters_while_it_follows(self):
        """Four painters publish as fast as they can; each version that is shown is one that was
        published: of the cells of some painters, each painter's in its order."""
        served = self.served(b"P1\n64 4\n" + b"0" * 256, "--versions", "64")
        place = feeds.Place(Frame(64, 4, Fraction(1), Fraction(0), Fraction(0)))
        follower = self.follower(served.port, place, pause=0.001)
        follower.start()

        def work(row):
            with clearmap.Client(served.port, timeout=PATIENCE) as client:
                for x in range(64):
                    client.paint(x, row, x + 1, row + 1)
                    try:
                        client.publish()
                    except clearmap.VersionsFull:
                        client.collect()

        painters = [threading.Thread(target=work, args=(row,)) for row in range(3)]
        for painter in painters:
            painter.start()
        for painter in painters:
            painter.join()
        with clearmap.Client(served.port) as client:
            client.collect()
            last = client.publish()
        self.until(lambda: self.shown and self.shown[-1].version == last)
        follower.stop()
        versions = [it.version for it in self.shown]
        self.assertEqual(versions, sorted(set(versions)))
        before = numpy.zeros(4, int)
        for it in self.shown:
            lengths = (it.found == 0).sum(axis=1)
            for row, length in enumerate(lengths):
                self.assertTrue((it.found[row, :length] == 0).all())
            self.assertTrue((lengths >= before).all())
            before = lengths
        self.assertEqual(before.tolist(), [64, 64, 64, 0])
        self.assertEqual(self.told, [])


if __name__ == "__main__":
    unittest.main()
