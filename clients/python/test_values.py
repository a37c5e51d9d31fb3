#!/usr/bin/env python3
"""Tests of what the client takes and gives: numbers, images, pickled errors, sizes of maps."""
import array
import copy
import importlib.util
import json
import pathlib
import pickle
import re
import shutil
import socket
import subprocess
import sys
import tempfile
import threading
import unittest

HERE = pathlib.Path(__file__).resolve().parent
TOP = HERE.parent.parent
sys.path.append(str(TOP / "tools"))

import clearmap
from fakes import POST, Fake
from served import Served, blank

HAS_NUMPY = importlib.util.find_spec("numpy") is not None


class Whole:
    """A whole number that isn't an int, as numpy's are."""

    def __init__(self, number):
        self.number = number

    def __index__(self):
        return self.number


class Numbers(unittest.TestCase):
    def test_whole_numbers(self):
        two, three = Whole(2), Whole(3)
        with Served(POST) as server, clearmap.Client(server.port) as client:
            with client.pin() as pinned:
                self.assertEqual(pinned.at(two, three), (4, (2, 1)))
                self.assertEqual(pinned.rect(two, two, three, three), (1, (2, 2), (2, 1)))
                self.assertEqual(pinned.path([(two, two), (three, two)]), (1, (2, 2), (2, 1)))
                self.assertEqual(pinned.clear_of(two, [(two, two)]), (1, (2, 2), (2, 1)))
                self.assertEqual(pinned.clearances([(two, three)]), [2.0])
                self.assertEqual(pinned.ask(clearmap.Queries().at(two, three)), [(4, (2, 1))])
            self.assertEqual(client.paint(two, two, three, three).changed, 1)
            self.assertEqual(client.clear(two, two, three, three).changed, 1)
            self.assertEqual(client.stamp(two, three, b"P1\n1 1\n1").changed, 1)

    @unittest.skipUnless(HAS_NUMPY, "there is no numpy")
    def test_numpy(self):
        import numpy

        cells = numpy.array([[2, 3], [5, 3]], dtype=numpy.uint16)
        with Served(POST) as server, clearmap.Client(server.port) as client:
            with client.pin() as pinned:
                self.assertEqual(pinned.path(cells), (4, (2, 3), (2, 1)))
                self.assertEqual(pinned.clearances(cells)[0], 2.0)
                self.assertRaises(TypeError, pinned.at, numpy.float64(2), 3)
                self.assertRaises(TypeError, pinned.path, cells / 2)
            image = numpy.frombuffer(b"P4\n8 4\n\xff\xff\xff\xff", dtype=numpy.uint8)
            self.assertRaises(clearmap.OutOfRange, client.stamp, 0, 0, image)
            small = numpy.frombuffer(b"P4\n6 4\n\xfc\xfc\xfc\xfc", dtype=numpy.uint8)
            self.assertEqual(client.stamp(0, 0, small).changed, 23)

    def test_what_is_no_whole_number(self):
        for number in (2.0, "2", None, 2.5, (2,)):
            with Fake(b"OK 0\n", b"OK 4 2 1\n") as fake:
                with clearmap.Client(fake.port, timeout=5) as client:
                    pinned = client.pin()
                    calls = (
                        lambda: pinned.at(number, 0),
                        lambda: pinned.rect(0, 0, number, 1),
                        lambda: pinned.path([(0, 0), (0, number)]),
                        lambda: pinned.clear_of(number, [(0, 0)]),
                        lambda: pinned.clearance([(number, 0)]),
                        lambda: pinned.clearances([(0, number)]),
                        lambda: clearmap.Queries().at(0, number),
                        lambda: client.paint(0, number, 1, 1),
                        lambda: client.clear(0, 0, number, 1),
                        lambda: client.stamp(number, 0, b"P1\n1 1\n1"),
                        lambda: clearmap.Client(fake.port, size=(number, 4)),
                    )
                    for call in calls:
                        with self.assertRaisesRegex(TypeError, "where a whole number is wanted"):
                            call()
                    self.assertEqual(pinned.at(2, 3), (4, (2, 1)))
            self.assertEqual(fake.lines, [[b"PIN\n", b"AT euclid2 2 3\n"]])


class Images(unittest.TestCase):
    def test_buffers(self):
        """Any buffer is sent with its number of bytes, and the next line is a line again."""
        image = b"P4\n16 2\n\xff\x00\x0f\xf0"
        spaced = bytearray(2 * len(image))
        spaced[::2] = image
        kinds = (
            image,
            bytearray(image),
            memoryview(image).cast("B", shape=[2, 6]),
            memoryview(image).cast("H"),
            memoryview(spaced)[::2],
            array.array("H", image),
        )
        for each in kinds:
            with Served(blank(16, 2)) as server, clearmap.Client(server.port) as client:
                self.assertEqual(client.stamp(0, 0, each), (1, 16))
                self.assertEqual(client.publish(), 1)
                with client.pin() as pinned:
                    wanted = b"P1\n16 2\n1111111100000000\n0000111111110000\n"
                    self.assertEqual(pinned.dump(), wanted)

    def test_what_has_no_bytes(self):
        with Fake(b"OK 1 1\n") as fake, clearmap.Client(fake.port, timeout=5) as client:
            for image in ("P1\n1 1\n1", 17, None, [80, 49], ("P4",)):
                with self.assertRaisesRegex(TypeError, "is no image"):
                    client.stamp(0, 0, image)
            self.assertEqual(client.stamp(0, 0, b"P1\n1 1\n1"), (1, 1))
        self.assertEqual(fake.lines, [[b"STAMP 0 0 8\n"]])


class Errors(unittest.TestCase):
    def test_pickled(self):
        errors = [
            clearmap.BlocksFull(2, "BlocksFull", (3, 1), "PAINT 0 0 1 1"),
            clearmap.Crooked(9, "Crooked", (2,), "PATH city 0 0"),
            clearmap.BadImage(15, "BadImage", ("Truncated",), "STAMP 0 0 1"),
            clearmap.TimedOut("no reply within 1 s"),
            clearmap.WrongAnswer("no"),
            clearmap.WrongMap((6, 4), (4, 6)),
        ]
        for error in errors:
            for again in (pickle.loads(pickle.dumps(error)), copy.copy(error)):
                self.assertIs(type(again), type(error))
                self.assertEqual((str(again), vars(again)), (str(error), vars(error)))
        self.assertEqual(str(errors[0]), "ERR 2 BlocksFull 3 1 (to 'PAINT 0 0 1 1')")
        self.assertEqual(pickle.loads(pickle.dumps(errors[0])).free, 1)

    def test_what_is_not_pickled(self):
        with Fake(b"OK 0\n", closes=False) as fake:
            with clearmap.Client(fake.port, timeout=5) as client:
                pinned = client.pin()
                for thing in (client, pinned):
                    for copied in (pickle.dumps, copy.copy, copy.deepcopy):
                        with self.assertRaisesRegex(TypeError, "can't be copied or pickled"):
                            copied(thing)


class Versions(unittest.TestCase):
    def test_what_publish_returns(self):
        """The version's number, which has its place in the log too."""
        with Fake(b"OK 9 3\n", closes=False) as fake:
            with clearmap.Client(fake.port, timeout=5) as client:
                published = client.publish()
        for again in (published, pickle.loads(pickle.dumps(published)), copy.copy(published)):
            self.assertIs(type(again), clearmap.Published)
            self.assertEqual((again.place, again.version, type(again.version)), (9, 3, int))
            self.assertEqual(repr(again), "Published(place=9, version=3)")
            self.assertEqual((again, again + 1, {3: "map"}[again], range(9)[again]), (3, 4, "map", 3))
            self.assertEqual((f"{again}", str(again), "%d" % again, json.dumps(again)), ("3",) * 4)

    def test_others_between(self):
        """A command of another client between a paint and the publish shows in its place."""
        others = (
            (None, 1),
            (lambda other: other.revert(), 2),
            (lambda other: other.clear(0, 0, 1, 1), 2),
            (lambda other: other.publish(), 2),
        )
        for act, wanted in others:
            with Served(POST) as server, clearmap.Client(server.port) as client:
                painted = client.paint(0, 0, 1, 1)
                if act:
                    with clearmap.Client(server.port) as other:
                        act(other)
                self.assertEqual(client.publish().place - painted.place, wanted)


class Package(unittest.TestCase):
    def test_version(self):
        told = re.search('^version = "(.*)"$', (HERE / "pyproject.toml").read_text(), re.M)
        self.assertEqual(clearmap.__version__, told[1])

    def test_types(self):
        mypy = shutil.which("mypy")
        if mypy is None:
            self.skipTest("there is no mypy")
        with tempfile.TemporaryDirectory() as folder:
            words = [mypy, "--strict", "--cache-dir", folder, "clearmap", "typed_uses.py"]
            run = subprocess.run(words, cwd=HERE, capture_output=True, text=True, timeout=200)
        self.assertEqual(run.returncode, 0, run.stdout)


class Recorded:
    """A way to a server that keeps what is read at once, as one write of the client comes."""

    def __init__(self, to):
        self.to, self.writes = to, []
        self.listener = socket.create_server(("127.0.0.1", 0))
        self.port = self.listener.getsockname()[1]
        threading.Thread(target=self.run, daemon=True).start()

    def run(self):
        with self.listener:
            stream, _ = self.listener.accept()
        with stream, socket.create_connection(("127.0.0.1", self.to)) as server:
            threading.Thread(target=self.replies, args=(server, stream), daemon=True).start()
            while data := stream.recv(65536):
                self.writes.append(data)
                server.sendall(data)

    def replies(self, server, stream):
        try:
            while data := server.recv(65536):
                stream.sendall(data)
        except OSError:
            pass  # the client has gone


class Sizes(unittest.TestCase):
    SIZES = [(1, 1), (6, 4), (64, 64), (65, 63), (128, 1), (1, 129), (4096, 2), (4033, 4032)]

    def test_found(self):
        for size in self.SIZES:
            with Served(blank(*size)) as server, clearmap.Client(server.port) as client:
                self.assertEqual((client.size, client.width, client.height), (size, *size))
            with Served(blank(*size)) as server, clearmap.Client(server.port) as client:
                with client.pin() as pinned:
                    self.assertEqual(client.size, size)
                    self.assertIsNone(pinned.at(0, 0))  # the pin that stood stands

    def test_told(self):
        for size in (*self.SIZES, (4096, 4096)):
            width, height = size
            others = [(width + dx, height + dy) for dx in (-1, 0, 1) for dy in (-1, 0, 1)]
            others.append((height, width))
            with Served(blank(*size)) as server:
                for other in others:
                    if other == size:
                        with clearmap.Client(server.port, size=size) as client:
                            self.assertEqual(client.size, size)
                            client.pin().unpin()
                    elif min(other) < 1 or max(other) > 4096:
                        with self.assertRaisesRegex(ValueError, "no map has"):
                            clearmap.Client(server.port, size=other)
                    else:
                        with self.assertRaises(clearmap.WrongMap) as caught:
                            clearmap.Client(server.port, size=other)
                        error = caught.exception
                        self.assertEqual((error.expected, error.served), (other, size))

    def test_in_how_many_writes(self):
        with Served(blank(300, 200)) as server:
            way = Recorded(server.port)
            with clearmap.Client(way.port, size=(300, 200)) as client:
                self.assertEqual(client.size, (300, 200))
            self.assertEqual(len(way.writes[0].splitlines()), 5)
            way = Recorded(server.port)
            with clearmap.Client(way.port) as client:
                for _ in range(2):
                    self.assertEqual(client.size, (300, 200))
                client.publish()
            self.assertEqual([data.split(b" ")[0] for data in way.writes[2:3]], [b"PUBLISH\n"])
            self.assertTrue(all(len(data.splitlines()) <= 129 for data in way.writes))

    def test_a_server_that_makes_no_sense(self):
        """An impossible size is a wrong answer, and not a size."""
        ok, out = b"NONE\n", b"ERR 1 OutOfRange\n"
        lines = [b"OK 0\n"] + [out, ok] * 63
        with Fake(*lines, closes=False) as fake:
            with clearmap.Client(fake.port, timeout=5) as client:
                self.assertRaises(clearmap.WrongAnswer, lambda: client.size)
                self.assertRaises(clearmap.ConnectionLost, lambda: client.size)
        with Fake(b"ERR 5 Memory\n", *[b"ERR 6 NotPinned\n"] * 126, closes=False) as fake:
            with clearmap.Client(fake.port, timeout=5) as client:
                self.assertRaises(clearmap.NoMemory, lambda: client.size)
        with Fake(b"ERR 5 Memory\n", *[b"ERR 6 NotPinned\n"] * 4, closes=False) as fake:
            self.assertRaises(clearmap.NoMemory, clearmap.Client, fake.port, size=(6, 4))

    @unittest.skipIf(sys.version_info < (3, 9), "the conversions of ROS want Python 3.9")
    def test_the_example(self):
        """plan.py tells no metres of a map that isn't the yaml's."""
        with tempfile.TemporaryDirectory() as folder:
            yaml = pathlib.Path(folder, "map.yaml")
            yaml.write_text(
                "image: map.pgm\nresolution: 0.05\norigin: [0, 0, 0]\nnegate: 0\n"
                "occupied_thresh: 0.65\nfree_thresh: 0.196\n"
            )
            pathlib.Path(folder, "map.pgm").write_bytes(b"P5\n6 4\n255\n" + b"\xfe" * 24)
            for image, status in ((POST, 0), (blank(60, 40), 1)):
                with Served(image) as server:
                    words = [sys.executable, TOP / "examples/plan.py", yaml, str(server.port)]
                    text = b"0.01 0.01\n"
                    run = subprocess.run(words, input=text, capture_output=True, timeout=60)
                said = run.stdout if status == 0 else run.stderr
                self.assertEqual((run.returncode, said.count(b"\n")), (status, 1), run)
                self.assertIn(b" m at (" if status == 0 else b"60 by 40 cells, and 6 by 4", said)
                self.assertEqual(run.stderr if status == 0 else run.stdout, b"")
            for port in ("x", "70000", "1"):
                words = [sys.executable, TOP / "examples/plan.py", yaml, port]
                run = subprocess.run(words, input=b"0.01 0.01\n", capture_output=True, timeout=60)
                self.assertEqual((run.returncode, run.stdout), (1, b""))
                self.assertRegex(run.stderr, b"^plan.py: .*\n$")


if __name__ == "__main__":
    unittest.main()
