#!/usr/bin/env python3
"""Tests of a gateway with as many clients or descriptors as there may be, before a server with too
few workers, and with a log that takes nothing."""
import contextlib
import pathlib
import resource
import signal
import subprocess
import sys
import tempfile
import time
import unittest

from testing import Gate, Line, Served, post, until
from test_lost import stop

PROGRAM = pathlib.Path(__file__).resolve().parent / "clearmap_gateway.py"
BURST = 300  # connections at once


class Clients(unittest.TestCase):
    """Connections at once, more than may be: those within the limit are served, on both loops."""

    def setUp(self):
        folder = pathlib.Path(self.enterContext(tempfile.TemporaryDirectory()))
        (folder / "uvloop.py").write_text("raise ImportError('there is none')\n")
        self.loops = ((), ("env", f"PYTHONPATH={folder}"))
        self.server = self.enterContext(Served(post(), "--workers", "4"))

    def burst(self, gate, count):
        """Lines of connections that have all come while the gateway stood still."""
        stop(gate.process.pid)
        lines = [self.enterContext(Line(gate.port)) for _ in range(count)]
        gate.process.send_signal(signal.SIGCONT)
        return lines

    def served(self, lines):
        """Those that are answered."""
        answered = []
        for line in lines:
            with contextlib.suppress(OSError):
                line.send("HELLO")
                if line.reply() == "ERR 11 UnknownCommand":
                    answered.append(line)
        return answered

    def test_a_burst(self):
        """No more are served than may be, and one line says so."""
        for loop in self.loops:
            gate = Gate(self.server.port, "--clients", "20", before=loop)
            lines = self.served(self.burst(gate, BURST))
            self.assertEqual(len(lines), 20)
            self.assertFalse(gate.is_served())
            lines.pop().close()
            self.assertTrue(until(gate.is_served))
            said = "clearmap-gateway: 20 clients are connected, and more may not be: others are "
            self.assertEqual(gate.end(), said + "closed\n")

    def test_few_descriptors(self):
        """The system allows fewer than clients might be: that is said, in two lines."""
        few = ("sh", "-c", 'ulimit -n 90 && exec "$@"', "sh")
        for loop in self.loops:
            gate = Gate(self.server.port, before=(*few, *loop))
            self.assertEqual(len(self.served(self.burst(gate, BURST))), 26)
            said = gate.end().splitlines()
            self.assertEqual(len(said), 2, said)
            self.assertIn("26 clients at once, as the system allows 90 descriptors", said[0])

    def test_no_descriptors(self):
        """Others have taken what the gateway counted on: it says so once, and goes on after that.
        """
        for loop in self.loops:
            gate = Gate(self.server.port, "--clients", "20", before=loop)
            used = len(list(pathlib.Path(f"/proc/{gate.process.pid}/fd").iterdir()))
            self.limit(gate, used + 10)
            lines = self.burst(gate, BURST)
            self.assertEqual(len(self.served(lines[:10])), 10)
            self.limit(gate, 100)
            self.assertEqual(len(self.served(lines[10:])), 10)
            said = gate.end().splitlines()
            self.assertIn("no connection can be taken: Too many open files", said[0])
            self.assertIn("20 clients are connected", said[1])
            self.assertEqual(len(said), 2, said)

    def limit(self, gate, descriptors):
        """How many descriptors the gateway may have from now on."""
        hard = resource.getrlimit(resource.RLIMIT_NOFILE)[1]
        resource.prlimit(gate.process.pid, resource.RLIMIT_NOFILE, (descriptors, hard))


class Workers(unittest.TestCase):
    def test_too_few(self):
        """It says so long before its patience is over, and serves once there are enough."""
        with Served(post(), "--workers", "2") as server:
            with Line(server.port) as other:
                self.assertEqual(other.ask("HELLO"), "ERR 11 UnknownCommand")
                begun = time.monotonic()
                words = [sys.executable, str(PROGRAM), "--port", str(server.port), "--links", "2"]
                gate = subprocess.Popen(words, stdout=subprocess.PIPE, stderr=subprocess.PIPE)
                self.addCleanup(gate.communicate)
                self.addCleanup(gate.kill)
                said = gate.stderr.readline().decode()
                self.assertLess(time.monotonic() - begun, 15)
                self.assertIn("1 of 2 connections have a worker of the server: it hangs, or", said)
            self.assertRegex(gate.stdout.readline(), b"^LISTENING ")


class Log(unittest.TestCase):
    """A log on a full disk takes nothing, and ends nothing."""

    def test_a_loss(self):
        server = Served(post())
        with open("/dev/full", "wb") as full, \
                Gate(server.port, "--links", "2", log=full) as gate:  # fmt: skip
            with Line(gate.port) as line:
                self.assertEqual(line.ask("PIN"), "OK 0")
                server.end()
                self.assertTrue(line.is_closed())
            with Served(post(), port=server.port):
                self.assertTrue(until(lambda: self.is_back(gate)))
            gate.process.send_signal(signal.SIGTERM)
            self.assertEqual(gate.process.wait(20), 0)

    def is_back(self, gate):
        with contextlib.suppress(OSError):
            return gate.is_served()

    def test_no_port_can_be_told(self):
        """Whoever starts it waits for that line: it says what it can't write, and ends."""
        with Served(post()) as server, open("/dev/full", "wb") as full:
            words = [sys.executable, str(PROGRAM), "--port", str(server.port), "--links", "2"]
            gate = subprocess.run(words, stdout=full, stderr=subprocess.PIPE, timeout=30)
        said = b"clearmap-gateway: the standard output can't be written: No space left on device\n"
        self.assertEqual((gate.returncode, gate.stderr), (1, said))


if __name__ == "__main__":
    unittest.main()
