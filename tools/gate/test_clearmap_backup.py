#!/usr/bin/env python3
"""Tests of bin/clearmap-backup against the built server, which CLEARMAP names, and against servers
whose dump isn't whole, or none."""
import contextlib
import itertools
import os
import pathlib
import resource
import socket
import subprocess
import sys
import tempfile
import threading
import time
import unittest

sys.path.append(str(pathlib.Path(__file__).resolve().parent.parent))  # served.py
from served import PROGRAM, Served

SCRIPT = str(pathlib.Path(__file__).resolve().parents[2] / "bin/clearmap-backup")
POST = b"P1\n6 4\n000000\n001000\n000000\n000000\n"


class Backups(unittest.TestCase):
    def setUp(self):
        folder = tempfile.TemporaryDirectory()
        self.addCleanup(folder.cleanup)
        os.symlink(PROGRAM, f"{folder.name}/clearmap")
        self.environment = {**os.environ, "PATH": f"{folder.name}:{os.environ['PATH']}"}

    def run_script(self, *words, **streams):
        streams = {"stdout": subprocess.PIPE, "stderr": subprocess.PIPE, **streams}
        return subprocess.run([SCRIPT, *words], env=self.environment, stdin=subprocess.DEVNULL, timeout=30, **streams)

    def said_by(self, text, *words, stops=False, trickles=b""):
        """A backup from a server of one connection that says this at once, and ends when its client
        does; one that stops doesn't say that this was all, and one that trickles says more and more
        of it."""
        listener = socket.create_server(("127.0.0.1", 0))

        def serve():
            stream, _ = listener.accept()
            with stream, contextlib.suppress(ConnectionError):
                stream.sendall(text)
                while trickles:
                    stream.sendall(trickles)
                    time.sleep(0.05)
                if not stops:
                    stream.shutdown(socket.SHUT_WR)
                while stream.recv(4096):
                    pass

        thread = threading.Thread(target=serve)
        thread.start()
        try:
            return self.run_script("--port", str(listener.getsockname()[1]), *words)
        finally:
            thread.join()
            listener.close()

    def test_a_whole_map(self):
        blank = b"P4\n4096 4096\n" + bytes(512 * 4096)
        for image, size in ((POST, 35), (blank, 4096 * 4096 + 59 * 4096 + 13)):
            with self.subTest(size=size), Served(image) as server:
                run = self.run_script("--port", str(server.port))
                self.assertEqual((run.returncode, run.stderr, len(run.stdout)), (0, b"", size))
                again = subprocess.run([PROGRAM, "dist", "--query", "AT euclid2 0 0"], input=run.stdout, stdout=subprocess.PIPE, check=True)
                self.assertEqual(again.stdout, b"OK 5 2 1\n" if image == POST else b"NONE\n")
        self.assertEqual(self.said_by(b"OK 3\nOK 12\nP1\n2 2\n01\n10BYE\n").stdout, b"P1\n2 2\n01\n10")

    def test_a_size_that_is_expected(self):
        """A map of another size isn't written, though it is whole."""
        with Served(POST) as server:
            port = ("--port", str(server.port))
            run = self.run_script(*port, "--size", "6x4")
            self.assertEqual((run.returncode, run.stdout), (0, POST))
            for size in ("4x6", "6x5", "16x4", "6x41", "4096x4096"):
                run = self.run_script("--size", size, *port)
                self.assertEqual((run.returncode, run.stdout), (1, b""))
                said = f"clearmap-backup: another map: it has 6x4 cells, and {size} are expected\n"
                self.assertEqual(run.stderr.decode(), said)
        run = self.said_by(b"OK 3\nOK 12\nP1\n2 2\n01\n10BYE\n", "--size", "2x2")
        self.assertEqual((run.returncode, run.stdout), (0, b"P1\n2 2\n01\n10"))

    def test_a_full_disk(self):
        """No byte, or a part of the answer, or all but its last byte can be kept: nothing is
        written. A file may grow no more, by a signal too."""
        for most, ignores in itertools.product((0, 14, 20, 30, 49), (True, False)):
            with Served(POST) as server, tempfile.TemporaryFile() as written:
                run = self.run_script(
                    "--port", str(server.port), stdout=written, restore_signals=not ignores,
                    preexec_fn=lambda: resource.setrlimit(resource.RLIMIT_FSIZE, (most, most)),
                )
                self.assertEqual((run.returncode, written.tell()), (1, 0))
            lines = run.stderr.decode().splitlines()
            said = "clearmap-backup: the map can't be kept in the folder "
            self.assertEqual((len(lines), lines[-1][: len(said)]), (1, said), (most, lines))
            self.assertTrue(lines[-1].endswith(": is the disk full?"))

    def test_a_folder_that_is_none(self):
        with Served(POST) as server:
            self.environment["TMPDIR"] = "/proc/none"
            run = self.run_script("--port", str(server.port))
        self.assertEqual((run.returncode, run.stdout), (1, b""))
        last = run.stderr.splitlines()[-1]
        self.assertEqual(last, b"clearmap-backup: no folder can be made in /proc/none")

    def test_room(self):
        """The folder has the map once, while it is written to whoever takes its time."""
        with Served(b"P4\n2000 2000\n" + bytes(250 * 2000)) as server:
            with tempfile.TemporaryDirectory() as folder:
                self.environment["TMPDIR"] = folder
                words = [SCRIPT, "--port", str(server.port)]
                run = subprocess.Popen(words, env=self.environment, stdout=subprocess.PIPE)
                with run:
                    first = run.stdout.read(1)  # then all of it is kept
                    kept = sum(it.stat().st_size for it in pathlib.Path(folder).glob("*/*"))
                    size = len(first + run.stdout.read())
                self.assertEqual((run.returncode, size), (0, 2000 * 2029 + 13))
                self.assertLess(kept, size + 1000)
                self.assertEqual(os.listdir(folder), [])

    def test_an_output_that_is_full(self):
        """The map is whole, and a part of it could be written."""
        with Served(POST) as server, tempfile.NamedTemporaryFile() as written:
            words = f"exec {SCRIPT} --port {server.port} >> {written.name}"
            written.write(bytes(480))
            written.flush()
            limit = lambda: resource.setrlimit(resource.RLIMIT_FSIZE, (512, 512))
            run = subprocess.run(
                ["sh", "-c", words], env=self.environment, preexec_fn=limit, capture_output=True
            )
        said = b"clearmap-backup: the map couldn't be written\n"
        self.assertEqual((run.returncode, run.stderr), (1, said))

    def test_what_is_given_twice(self):
        run = self.run_script("--port", "1", "--timeout", "2", "--port", "2")
        said = "clearmap-backup: '--port' is given twice\n"
        self.assertEqual((run.returncode, run.stdout, run.stderr.decode()), (2, b"", said))

    def test_what_is_no_whole_map(self):
        rows = (
            (b"", b"FAULT net"),
            (b"OK 0\n", b"FAULT net"),
            (b"OK 0\nERR 5 Memory\nBYE\n", b"ERR 5 Memory"),
            (b"ERR 5 Memory\n", b"no map"),
            (b"OK 0\nOK 35\n" + POST[:20], b"FAULT net"),
            (b"OK 0\nOK 36\n" + POST + b"BYE\n", b"isn't whole"),
            (b"OK 0\nOK 34\n" + POST + b"BYE\n", b"isn't whole"),
            (b"OK 0\nOK 35\n" + POST, b"the server went away"),
            (b"OK 0\nOK 35\n" + POST + b"ERR 5 Memory\n", b"isn't whole"),
            (b"OK 0\nOK 35 1\n" + POST + b"BYE\n", b"no map"),
            (b"HTTP/1.1 400 Bad Request\r\n\r\n", b"no map"),
            (b"OK 0\nOK 8\nP4\n8 1\n\xffBYE\n", b"its head isn't that of a plain PBM image"),
            (b"OK 0\nOK 12\nP1\n4 1 0000\nBYE\n", b"its head isn't that of a plain PBM image"),
            (b"OK 0\nOK 12\nP1\n4097 1\n0\nBYE\n", b"its head isn't that of a plain PBM image"),
            (b"OK 0\nOK 11\nP1\n04 1\n000BYE\n", b"its head isn't that of a plain PBM image"),
            (b"OK 0\nOK 11\nP1\n4 1\n000\nBYE\n", b"it has 4x1 cells, and 3 pixels"),
            (b"OK 0\nOK 13\nP1\n4 1\n00000\nBYE\n", b"it has 4x1 cells, and 5 pixels"),
            (b"OK 0\nOK 13\nP1\n4 1\n0000x\nBYE\n", b"4 pixels with 1 other bytes"),
            (b"OK 0\nOK 12\nP1\n2 1\n01\0\0\nBYE\n", b"2 pixels with 2 other bytes"),
            (b"OK 0\nOK 99999999\nP1\n4 1\n0000\nBYE\n", b"FAULT net"),
            (b"OK 0\nOK 012\nP1\n4 1\n0000\nBYE\n", b"no map"),
        )
        for text, why in rows:
            with self.subTest(text=text):
                run = self.said_by(text)
                self.assertEqual((run.returncode, run.stdout), (1, b""))
                self.assertIn(why, run.stderr)

    def test_streams_and_words(self):
        with Served(POST) as server, open("/dev/full", "wb") as full:
            self.assertEqual(self.run_script("--port", str(server.port), stdout=full).returncode, 1)
        with socket.create_server(("127.0.0.1", 0)) as listener:
            port = listener.getsockname()[1]
        run = self.run_script("--port", str(port))
        self.assertEqual((run.returncode, run.stdout, run.stderr), (1, b"", b"clearmap-backup: no map from port %d: FAULT net\n" % port))
        late = ("0", "-1", "x", "1.5", "86401", "", "1000000", "01")
        ports = ((), ("0",), ("x",), ("70000",), ("1", "2"), ("1", "--timeout"))
        rows = [("--port", *port) for port in ports]
        rows += [("--port", "1", "--timeout", word) for word in late]
        sizes = ("", "6", "6x", "x4", "6x4x", "x6x4", "6x4x2", "0x4", "6x04", "40960x4", "6 x4",
                 "6X4", "6xx4", "x", "*x*", "6x4\n")  # fmt: skip
        rows += [("--port", "1", "--size", word) for word in sizes]
        for words in ((), *rows, ("--timeout", "9"), ("map.pbm",), ("--help", "1")):
            with self.subTest(words=words):
                run = self.run_script(*words)
                self.assertEqual((run.returncode, run.stdout), (2, b""))
                self.assertNotEqual(run.stderr, b"")
        usage = b"\nUsage: clearmap-backup [OPTIONS] --port <NUMBER>\n"
        self.assertIn(usage, self.run_script("--help").stdout)

    def test_time_outs(self):
        """Two clients that say nothing keep both workers; a server that stops in the middle."""
        with Served(POST, "--workers", "2") as server, contextlib.ExitStack() as idle:
            for _ in range(2):
                link = socket.create_connection(("127.0.0.1", server.port), timeout=30)
                stream = idle.enter_context(link)
                stream.sendall(b"PIN\n")
                self.assertEqual(stream.recv(5), b"OK 0\n")
            run = self.run_script("--timeout", "1", "--port", str(server.port))
        self.assertEqual((run.returncode, run.stdout), (1, b""))
        sentence = b"connected, but no worker has answered within 1 s: "
        sentence += b"are all workers of the server taken?"
        self.assertEqual(run.stderr, b"clearmap-backup: " + sentence + b"\n")
        run = self.said_by(b"OK 0\nOK 35\nP1\n", "--timeout", "3", stops=True)
        wanted = (1, b"", b"clearmap-backup: no reply within 3 s\n")
        self.assertEqual((run.returncode, run.stdout, run.stderr), wanted)

    def test_bytes_that_trickle(self):
        """They come all the time, and the reply doesn't end."""
        no_reply = b"clearmap-backup: no reply within 1 s\n"
        for text, wanted in (
            (b"", b"clearmap-backup: connected, but no worker has answered within 1 s"),
            (b"OK 0\n", no_reply),
            (b"OK 0\nOK 16838669\nP1\n4096 4096\n", no_reply),
        ):
            begun = time.monotonic()
            run = self.said_by(text, "--timeout", "1", trickles=b"0" * 100)
            self.assertEqual((run.returncode, run.stdout), (1, b""))
            self.assertTrue(run.stderr.startswith(wanted), run.stderr)
            self.assertLess(time.monotonic() - begun, 8)


if __name__ == "__main__":
    unittest.main()
