#!/usr/bin/env python3
"""Tests of the client against the built `clearmap serve`, named by CLEARMAP, and against servers
that answer wrongly, late or not at all."""
import io
import math
import pathlib
import socket
import subprocess
import sys
import unittest

sys.path.append(str(pathlib.Path(__file__).resolve().parent.parent.parent / "tools"))

import clearmap
from fakes import POST, Fake
from served import PROGRAM, Served


class Serving(unittest.TestCase):
    def test_queries(self):
        with Served(POST) as server, clearmap.Client(server.port) as client:
            with client.pin() as pinned:
                self.assertEqual(pinned.version, 0)
                self.assertEqual(pinned.at(0, 0), clearmap.Near(5, (2, 1)))
                self.assertEqual(pinned.at(5, 3, clearmap.CITY), (5, (2, 1)))
                self.assertEqual(pinned.rect(0, 2, 6, 4), clearmap.Tightest(1, (2, 2), (2, 1)))
                corner = [(0, 0), (5, 0), (5, 3)]
                self.assertEqual(pinned.path(corner, "city"), (1, (2, 0), (2, 1)))
                self.assertEqual(pinned.clear_of(2, corner, "city"), (1, (2, 0), (2, 1)))
                self.assertIsNone(pinned.clear_of(1, corner, "chess"))
                self.assertEqual(pinned.dump(), POST)
                back_and_forth = [(5, turn % 2) for turn in range(2500)]
                self.assertEqual(pinned.clearance(back_and_forth), 3.0)
                self.assertEqual(pinned.clearance(back_and_forth + [(5, 0), (2, 0)]), 1.0)
                joint = [(5, (turn + 1) % 2) for turn in range(1000)] + [(0, 0), (0, 1)]  # the tightest cell lies between the pieces
                self.assertEqual(pinned.clearance(joint), 1.0)
                self.assertRaises(clearmap.BadPath, pinned.clearance, [])
                self.assertRaises(clearmap.Crooked, pinned.clearance, [(0, 0), (1, 1)])
            with client.pin() as pinned:
                self.assertEqual(pinned.version, 0)

    def test_commands(self):
        with Served(POST) as server, clearmap.Client(server.port) as client:
            self.assertEqual(client.paint(4, 3, 6, 4), clearmap.Change(1, 2))
            self.assertEqual(client.stamp(0, 2, b"P1\n3 2\n111\n101"), clearmap.Change(2, 5))
            self.assertEqual(client.clear(0, 2, 1, 3), clearmap.Change(3, 1))
            self.assertEqual(client.publish(), 1)
            self.assertEqual(client.paint(0, 0, 6, 4).changed, 17)
            self.assertEqual(client.revert(), 6)
            self.assertEqual(client.collect(), clearmap.Collected(7, 1, 1))
            with client.pin() as pinned:
                self.assertEqual((pinned.version, pinned.at(5, 3, "city")), (1, (0, (5, 3))))
                self.assertEqual(pinned.dump(), b"P1\n6 4\n000000\n001000\n011000\n101011\n")

    def test_checkpoints(self):
        with Served(POST, "--log", "3") as server, clearmap.Client(server.port) as client, client.pin() as pinned:
            for place in (1, 2, 3):
                self.assertEqual(client.paint(0, 0, place, 1).place, place)
            self.assertRaises(clearmap.LogFull, client.publish)
            self.assertEqual(client.checkpoint(), 4)
            self.assertEqual(client.publish(), 1)  # what was painted before the checkpoint is in the version
            self.assertEqual(client.collect().place, 6)
            self.assertEqual(client.checkpoint(), 7)  # of a log with room, too
            self.assertEqual(client.checkpoint(), 8)
            self.assertEqual(pinned.dump(), POST)
        with Served(POST, "--log", "3") as server, clearmap.Client(server.port, checkpoints=True) as client:
            places = [client.paint(x, 0, x + 1, 1).place for x in range(6)]
            self.assertEqual(places, [1, 2, 3, 5, 6, 7])  # 4 is the checkpoint's
            self.assertEqual(client.stamp(0, 3, b"P1\n2 1\n11"), clearmap.Change(9, 2))  # after 8; its bytes are sent again
            self.assertEqual((client.revert(), client.collect().place, client.publish()), (10, 11, 1))
            with client.pin() as pinned:
                self.assertEqual(pinned.dump(), POST)
            self.assertRaises(clearmap.OutOfRange, client.paint, 0, 0, 7, 1)
            self.assertEqual(client.paint(0, 0, 1, 1), clearmap.Change(14, 1))

    def test_a_log_that_others_fill(self):
        full = b"ERR 4 LogFull\n"
        with Fake(full, b"OK 7\n", full, closes=False) as fake, clearmap.Client(fake.port, timeout=5, checkpoints=True) as client:
            self.assertRaises(clearmap.LogFull, client.publish)
        with Fake(full, b"ERR 17 PlacesUsed\n", closes=False) as fake, clearmap.Client(fake.port, timeout=5, checkpoints=True) as client:
            with self.assertRaises(clearmap.PlacesUsed) as caught:
                client.publish()
            self.assertEqual((caught.exception.number, caught.exception.line), (17, "CHECKPOINT"))

    def test_a_pin_stays(self):
        with Served(POST) as server, clearmap.Client(server.port) as painter, clearmap.Client(server.port) as planner:
            with planner.pin() as before:
                painter.paint(0, 0, 1, 1)
                self.assertEqual(painter.publish(), 1)
                self.assertEqual(before.at(0, 0).distance, 5)
            with planner.pin() as after:
                self.assertEqual((after.version, after.at(0, 0)), (1, (0, (0, 0))))

    def test_a_pin_is_renewed(self):
        with Served(POST) as server, clearmap.Client(server.port) as painter, clearmap.Client(server.port) as planner, planner.pin() as pinned:
            painter.paint(0, 0, 1, 1)
            painter.publish()
            self.assertEqual((pinned.version, pinned.at(0, 0).distance), (0, 5))
            self.assertEqual(pinned.renew(), 1)
            self.assertEqual((pinned.version, pinned.at(0, 0).distance), (1, 0))
            self.assertEqual(pinned.renew(), 1)
        with Fake(b"OK 0\n", b"OK 0\n", b"ERR 5 Memory\n", closes=False) as fake, clearmap.Client(fake.port, timeout=5) as client, client.pin() as pinned:
            self.assertRaises(clearmap.NoMemory, pinned.renew)
            self.assertRaisesRegex(clearmap.ClearmapError, "the pin was left", pinned.at, 0, 0)  # it was left, and not taken again

    def test_a_pin_that_was_left(self):
        """Nothing of it is sent, also where the connection has another pin by then, which would
        answer from another version."""
        calls = (
            lambda pinned: pinned.at(0, 0),
            lambda pinned: pinned.rect(0, 0, 1, 1),
            lambda pinned: pinned.path([(0, 0)]),
            lambda pinned: pinned.clear_of(1, [(0, 0)]),
            lambda pinned: pinned.clearance([(0, 0)]),
            lambda pinned: pinned.clearances([(0, 0)]),
            lambda pinned: pinned.ask(clearmap.Queries().at(0, 0)),
            lambda pinned: pinned.ask(clearmap.Queries()),
            lambda pinned: pinned.dump(),
            lambda pinned: pinned.renew(),
            lambda pinned: pinned.unpin(),
        )
        with Served(POST) as server, clearmap.Client(server.port) as client:
            with client.pin() as left:
                pass
            client.paint(0, 0, 1, 1)
            client.publish()
            for second in (False, True):
                pinned = client.pin() if second else None
                for call in calls:
                    with self.subTest(call=call, second=second), self.assertRaisesRegex(clearmap.ClearmapError, "^the pin was left$"):
                        call(left)
            self.assertEqual((left.version, pinned.version, pinned.at(0, 0).distance), (0, 1, 0))

    def test_many_clearances(self):
        with Served(POST) as server, clearmap.Client(server.port) as client, client.pin() as pinned:
            cells = [(2, 1), (0, 0), (5, 3), (6, 0), (0, 4), (-1, 0), (0, -1), (4096, 0), (10**12, 0)]
            self.assertEqual(pinned.clearances(cells), [0, math.sqrt(5), math.sqrt(13), 0, 0, 0, 0, 0, 0])
            self.assertEqual(pinned.clearances([(2, turn % 4) for turn in range(300)]), [1, 0, 1, 2] * 75)
            self.assertEqual(pinned.clearances([]), [])
        with Fake(b"OK 0\n", b"ERR 5 Memory\n", closes=False) as fake, clearmap.Client(fake.port, timeout=5) as client:
            self.assertRaises(clearmap.NoMemory, client.pin().clearances, [(0, 0)])

    def test_no_obstacle(self):
        with Served(b"P1\n2 1\n00\n") as server, clearmap.Client(server.port) as client, client.pin() as pinned:
            self.assertIsNone(pinned.at(0, 0))
            self.assertIsNone(pinned.rect(0, 0, 2, 1))
            self.assertIsNone(pinned.path([(0, 0)]))
            self.assertIsNone(pinned.clear_of(99, [(0, 0)]))
            self.assertEqual(pinned.clearance([(0, 0)]), math.inf)
            self.assertEqual(pinned.clearances([(1, 0), (2, 0)]), [math.inf, 0])

    def test_walls(self):
        """The cells around the map are obstacles: the frame, whose cells lie at -1 and one cell
        after the last."""
        with Served(b"P1\n5 3\n00000\n00000\n00000\n", "--edge", "wall") as server, clearmap.Client(server.port) as client, client.pin() as pinned:
            self.assertEqual(pinned.at(0, 1), clearmap.Near(1, (-1, 1)))
            self.assertEqual(pinned.at(2, 1, "chess"), (2, (0, -1)))
            self.assertEqual(pinned.at(4, 1), (1, (5, 1)))
            self.assertEqual(pinned.at(2, 2), (1, (2, 3)))
            self.assertEqual(pinned.rect(1, 1, 4, 2), clearmap.Tightest(4, (1, 1), (-1, 1)))
            self.assertEqual(pinned.path([(2, 1), (0, 1)]), (1, (0, 1), (-1, 1)))
            self.assertEqual(pinned.clear_of(5, [(2, 1), (0, 1)]), (4, (2, 1), (2, -1)))
            self.assertEqual(pinned.clearance([(2, 1), (3, 1)]), 2.0)
            self.assertEqual(pinned.dump(), b"P1\n5 3\n00000\n00000\n00000\n")

    def test_many_in_one_trip(self):
        with Served(POST) as server, clearmap.Client(server.port) as client, client.pin() as pinned:
            queries = clearmap.Queries()
            for turn in range(300):
                queries.at(turn % 6, 1, "chess").clear_of(1, [(0, 0), (5, 0)]).at(6, 0)
            answers = pinned.ask(queries.rect(0, 0, 1, 1).path([(0, 0), (1, 1)]))
            self.assertEqual(len(answers), 902)
            for turn in range(300):
                near, clear, outside = answers[3 * turn : 3 * turn + 3]
                self.assertEqual(near, (abs(turn % 6 - 2), (2, 1)))
                self.assertIsNone(clear)
                self.assertIsInstance(outside, clearmap.OutOfRange)
            self.assertEqual(answers[900], (5, (0, 0), (2, 1)))
            self.assertEqual(answers[901].index, 1)

    def test_the_largest(self):
        image = b"P4\n4096 4096\n\x80" + bytes(4096 * 512 - 1)
        with Served(image) as server, clearmap.Client(server.port) as client:
            self.assertEqual(client.stamp(0, 0, image).changed, 0)
            with client.pin() as pinned:
                self.assertEqual(pinned.at(4095, 4095), (33538050, (0, 0)))
                self.assertEqual(pinned.path([(4095, 4095)] * 1000, "city").distance, 8190)
                dump = pinned.dump()
                self.assertEqual((len(dump), dump[:14]), (4096 * 4096 + 59 * 4096 + 13, b"P1\n4096 4096\n1"))


class Refusals(unittest.TestCase):
    def refused(self, kind, number, name, details, call):
        with self.assertRaises(kind) as caught:
            call()
        refusal = caught.exception
        self.assertEqual((refusal.number, refusal.name, refusal.details), (number, name, details))

    def test_each(self):
        with Served(POST, "--blocks", "2", "--versions", "2", "--log", "3") as server, clearmap.Client(server.port) as client:
            pinned = clearmap.Pinned(client, 0)  # a pin that isn't there
            self.refused(clearmap.NotPinned, 6, "NotPinned", (), lambda: pinned.at(0, 0))
            self.refused(clearmap.BadArguments, 12, "BadArguments", (), lambda: client.paint(3, 0, 3, 1))
            self.refused(clearmap.BadArguments, 12, "BadArguments", (), lambda: client.paint(-1, 0, 3, 1))
            self.refused(clearmap.OutOfRange, 1, "OutOfRange", (), lambda: client.paint(0, 0, 7, 1))
            self.refused(clearmap.OutOfRange, 1, "OutOfRange", (), lambda: client.stamp(5, 0, b"P1\n2 1\n11"))
            self.refused(clearmap.OutOfRange, 1, "OutOfRange", (), lambda: client.stamp(4096, 0, b"P1\n2 1\n11"))
            self.refused(clearmap.BadImage, 15, "BadImage", ("Truncated",), lambda: client.stamp(0, 0, b"P1\n2 1\n1"))
            with client.pin() as pinned:
                self.refused(clearmap.AlreadyPinned, 7, "AlreadyPinned", (), client.pin)
                self.refused(clearmap.BadPath, 8, "BadPath", (), lambda: pinned.path([]))
                self.refused(clearmap.BadPath, 8, "BadPath", (), lambda: pinned.path([(0, 0)] * 5000))
                self.refused(clearmap.Crooked, 9, "Crooked", (2,), lambda: pinned.path([(0, 0), (1, 0), (2, 1)]))
                self.refused(clearmap.OutOfRange, 1, "OutOfRange", (), lambda: pinned.at(0, 4))
                client.paint(0, 0, 1, 1)
                client.publish()
                self.refused(clearmap.BlocksFull, 2, "BlocksFull", (1, 0), lambda: client.paint(1, 0, 2, 1))
                self.refused(clearmap.VersionsFull, 3, "VersionsFull", (), client.publish)
                client.revert()
                self.refused(clearmap.LogFull, 4, "LogFull", (), client.revert)
                self.assertEqual(pinned.at(0, 0).distance, 5)

    def test_what_would_be_right(self):
        """A refusal says which columns and rows there are; a client that doesn't know asks."""
        said = "the map has columns 0 to 5 and rows 0 to 3$"
        with Served(POST) as server:
            for size in (None, (6, 4)):
                with clearmap.Client(server.port, size=size) as client, client.pin() as pinned:
                    self.assertRaisesRegex(clearmap.OutOfRange, said, pinned.at, 6, 0)
                    self.assertEqual(pinned.at(5, 3).distance, 13)
                    self.assertRaisesRegex(clearmap.OutOfRange, said, client.paint, 0, 0, 7, 1)
                with clearmap.Client(server.port, size=size) as client:
                    self.assertRaisesRegex(clearmap.OutOfRange, said, client.paint, 0, 0, 7, 1)
                    client.pin().unpin()  # no pin was left
        with Fake(b"ERR 1 OutOfRange\n", b"ERR 5 Memory\n", *[b"ERR 6 NotPinned\n"] * 126, closes=False) as fake:
            with clearmap.Client(fake.port, timeout=5) as client:
                unknown = "Client.size has the map's columns and rows$"
                self.assertRaisesRegex(clearmap.OutOfRange, unknown, client.paint, 0, 0, 7, 1)

    def test_cures(self):
        """What a refusal says that its own words don't."""
        raw = b"P4\n9 2\n\xff"
        rows = (
            (lambda client, pinned: pinned.path([(0, 0), (1, 0), (2, 1)]), "the point 2 is in neither the row nor the column of the one before"),
            (lambda client, pinned: pinned.path([]), "a path has 1 to 1000 points"),
            (lambda client, pinned: pinned.path([(0, 0)] * 1001), "a path has 1 to 1000 points"),
            (lambda client, pinned: client.pin(), "unpin the other pin"),
            (lambda client, pinned: client.stamp(0, 0, b"P1\n4097 1\n"), "an image has at most 4096 columns and 4096 rows"),
            (lambda client, pinned: client.stamp(0, 0, b"P1\n2 1\n1"), "2 by 1 are 2 pixels, and 1 are there"),
            (lambda client, pinned: client.stamp(0, 0, b"P1\n2 2\n1 # 0\n 10"), "2 by 2 are 4 pixels, and 3 are there"),
            (lambda client, pinned: client.stamp(0, 0, raw), "9 by 2 pixels are 4 bytes after the head, and 1 are there"),
            (lambda client, pinned: client.stamp(0, 0, b"P1\n2 1\n1 2"), "its byte 9 is b'2', where a pixel is 0 or 1"),
            (lambda client, pinned: client.stamp(0, 0, b"P1 #a\n2 1\n# b\n1x"), "its byte 15 is b'x', where a pixel is 0 or 1"),
            (lambda client, pinned: client.stamp(0, 0, b"P1 2"), ""),
        )
        with Served(POST) as server, clearmap.Client(server.port) as client, client.pin() as pinned:
            for call, cure in rows:
                with self.subTest(cure=cure), self.assertRaises(clearmap.Refused) as caught:
                    call(client, pinned)
                self.assertEqual(caught.exception.cure, cure)
                self.assertTrue(str(caught.exception).endswith(cure and f": {cure}"))

    def test_collect_at_each_publish(self):
        """Slots for versions run out, or older ones are freed at each publish."""
        with Served(POST) as server, clearmap.Client(server.port) as client:
            for _ in range(7):
                self.assertIsNone(client.publish().floor)
            with self.assertRaisesRegex(clearmap.VersionsFull, "publish\\(collect=True\\)"):
                client.publish()
            self.assertEqual(client.collect().floor, 7)
            for number in range(8, 30):
                done = client.publish(collect=True)
                self.assertEqual((done, done.floor), (number, number))
            with client.pin():
                self.assertEqual(client.publish(collect=True).floor, 29)
            self.assertRaisesRegex(TypeError, "collect is 'false'", client.publish, "false")

    def test_a_collect_that_is_refused(self):
        """The version is published all the same."""
        with Served(POST, "--log", "1") as server, clearmap.Client(server.port) as client:
            done = client.publish(collect=True)
            self.assertEqual((done, done.place, done.floor), (1, 1, None))
            self.assertRaises(clearmap.LogFull, client.publish)
        with Served(POST, "--log", "1") as server, clearmap.Client(server.port, checkpoints=True) as client:
            self.assertEqual(client.publish(collect=True).floor, 1)

    def test_what_is_never_sent(self):
        with Served(POST) as server, clearmap.Client(server.port) as client, client.pin() as pinned:
            with self.assertRaises(ValueError):
                pinned.at(0, 0, "city 0 0\nPAINT")
            with self.assertRaises(TypeError):
                pinned.at("0", 0)
            with self.assertRaises(ValueError):
                pinned.path([(4294967295, 4294967295)] * 1000)
            with self.assertRaises(ValueError):
                client.stamp(-1, 0, b"P1\n1 1\n1")
            self.assertEqual(pinned.at(0, 0).distance, 5)


class Failures(unittest.TestCase):
    def test_a_port_that_is_none(self):
        """Another order, or a port that the system would take for another, as 65536 + 7400."""
        for words, kind, said in (
            (("localhost", 7403), TypeError, "the port comes first.*Client\\(7400, 'localhost'\\)"),
            (("localhost",), TypeError, "'localhost', where a number is wanted"),
            ((7400.5,), TypeError, "whole number"), ((None,), TypeError, "whole number"),
            ((65536 + 7400,), ValueError, "up to 65535"), (("72936",), ValueError, "up to 65535"),
            ((-1,), ValueError, "up to 65535"),
        ):  # fmt: skip
            with self.assertRaisesRegex(kind, said):
                clearmap.Client(*words)
        with Served(POST) as server, clearmap.Client(str(server.port)) as client:
            self.assertEqual(client.size, (6, 4))

    def test_no_server(self):
        with socket.create_server(("127.0.0.1", 0)) as listener:
            port = listener.getsockname()[1]
        with self.assertRaises(clearmap.ConnectionLost):
            clearmap.Client(port)

    def test_a_server_that_is_killed(self):
        with Served(POST) as server, clearmap.Client(server.port) as client, client.pin() as pinned:
            server.process.kill()
            server.process.wait()
            with self.assertRaises(clearmap.ConnectionLost):
                pinned.at(0, 0)
            with self.assertRaises(clearmap.ConnectionLost):
                client.publish()

    def test_a_server_that_is_full(self):
        """The one worker has a connection, so a second one gets no reply before the first ends."""
        with Served(POST, "--workers", "1") as server, clearmap.Client(server.port) as first:
            first.publish()
            with clearmap.Client(server.port, timeout=0.2) as second, self.assertRaises(clearmap.TimedOut):
                second.pin()

    def test_silence(self):
        with Fake(closes=False) as fake, clearmap.Client(fake.port, timeout=0.2) as client:
            with self.assertRaises(clearmap.TimedOut):
                client.pin()
            with self.assertRaisesRegex(clearmap.ConnectionLost, "is closed"):
                client.pin()

    def test_half_a_reply(self):
        with Fake(b"OK", closes=True) as fake, clearmap.Client(fake.port) as client:
            with self.assertRaises(clearmap.ConnectionLost):
                client.pin()
        with Fake(b"OK 0\n", b"OK 20\nP1\n", closes=True) as fake, clearmap.Client(fake.port) as client:
            with self.assertRaises(clearmap.ConnectionLost):
                with client.pin() as pinned:
                    pinned.dump()

    def test_wrong_answers(self):
        rows = (
            (b"OK\n", lambda client: client.publish()),
            (b"OK 1\n", lambda client: client.publish()),
            (b"OK 1 2 3\n", lambda client: client.publish()),
            (b"OK 1 x\n", lambda client: client.publish()),
            (b"OK  1 2\n", lambda client: client.publish()),
            (b"NONE\n", lambda client: client.pin()),
            (b"OK CLEAR\n", lambda client: client.collect()),
            (b"OK 4 1\n", lambda client: client.checkpoint()),
            (b"ERR 17 LogFull\n", lambda client: client.checkpoint()),
            (b"HTTP/1.1 400 Bad Request\r\n", lambda client: client.pin()),
            (b"ERR 6\n", lambda client: client.pin()),
            (b"ERR 10 Nothing\n", lambda client: client.pin()),
            (b"ERR 2 BlocksFull 1\n", lambda client: client.paint(0, 0, 1, 1)),
            (b"ERR x NotPinned\n", lambda client: client.pin()),
            (b"ERR 4 VersionsFull\n", lambda client: client.publish()),
            (b"\xff\xfe\n", lambda client: client.revert()),
            (b"A" * 200, lambda client: client.revert()),
            (b"OK 0 0\n", lambda client: clearmap.Pinned(client, 0).at(0, 0)),
            (b"NONE\n", lambda client: clearmap.Pinned(client, 0).clear_of(1, [(0, 0)])),
            (b"OK 9999999999\n", lambda client: clearmap.Pinned(client, 0).dump()),
            (b"OK -1 0 0\n", lambda client: clearmap.Pinned(client, 0).at(0, 0)),
            (b"OK 1 --1 0\n", lambda client: clearmap.Pinned(client, 0).at(0, 0)),
            (b"OK 1 -1 0 0 0\n", lambda client: clearmap.Pinned(client, 0).rect(0, 0, 1, 1)),
            (b"OK -1 0\n", lambda client: client.publish()),
        )
        for answer, call in rows:
            with self.subTest(answer=answer), Fake(answer, closes=False) as fake, clearmap.Client(fake.port, timeout=5) as client:
                with self.assertRaises(clearmap.WrongAnswer):
                    call(client)
                with self.assertRaisesRegex(clearmap.ConnectionLost, "is closed"):  # the connection isn't used again
                    client.pin()


class Tables(unittest.TestCase):
    def table(self, image, *words):
        run = subprocess.run([PROGRAM, "dist", *words], input=image, capture_output=True, check=True)
        return clearmap.read_distances(io.StringIO(run.stdout.decode()))

    def test_tables(self):
        room = b"P1\n3 2\n100\n000\n"
        self.assertEqual(self.table(room), [[0, 1, 4], [1, 2, 5]])
        self.assertEqual(self.table(room, "--nearest")[1][2], clearmap.Near(5, (0, 0)))
        self.assertEqual(self.table(b"P1\n2 1\n00\n"), [[None, None]])
        walled = self.table(b"P1\n2 1\n00\n", "--edge", "wall", "--nearest")
        self.assertEqual(walled, [[clearmap.Near(1, (-1, 0)), clearmap.Near(1, (1, -1))]])
        wrong = ("ERR 15 BadImage Truncated\n", "", "0 1\n0\n", "1/2\n", "-1\n", "0  1\n")
        numbers = ("-1/0/0\n", "1/-/0\n", "1/2/3/4\n")
        for text in (*wrong, *numbers, "0 1\n4 5", "16", "0 1\n4 "):  # the last three are cut
            with self.assertRaises(clearmap.WrongAnswer, msg=text):
                clearmap.read_distances(io.StringIO(text))


if __name__ == "__main__":
    unittest.main()
