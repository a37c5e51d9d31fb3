#!/usr/bin/env python3
"""Tests of a gateway whose clients or servers don't do what they should, or go away."""
import os
import pathlib
import signal
import unittest

from testing import Answering, Gate, Line, Served, blank, post, until

HALF = 4096 // 2


def stop(pid):
    """Stops a process, and waits until each of its threads stands still."""
    os.kill(pid, signal.SIGSTOP)
    tasks = pathlib.Path(f"/proc/{pid}/task")
    until(lambda: all("\nState:\tT" in (task / "status").read_text() for task in tasks.iterdir()))


class SlowClients(unittest.TestCase):
    """Clients next to others that do nothing, or don't do what they started."""

    def test_idle_and_half_done(self):
        with Served(post(), "--workers", "4") as server, \
                Gate(server.port, "--links", "3") as gate:  # fmt: skip
            idle = [Line(gate.port) for _ in range(100)]
            for number, line in enumerate(idle):
                line.socket.sendall((b"", b"AT ci", b"STAMP 0 0 900\nP4", b"PIN\nDUM")[number % 4])
            with Line(gate.port) as line:
                self.assertEqual(line.ask("PAINT 0 0 1 1"), "OK 1 1")
                self.assertEqual(line.ask("PUBLISH"), "OK 2 1")
                self.assertEqual(line.ask("PIN"), "OK 1")
                self.assertEqual(line.ask("AT city 0 0"), "OK 0 0 0")
            for line in idle:
                line.close()

    def test_stamps_that_dont_come(self):
        """More room than there is for stamps is asked for: those that don't come are closed."""
        flags = ("--links", "2", "--patience", "2")
        with Served(post()) as server, Gate(server.port, *flags) as gate:
            slow = [Line(gate.port) for _ in range(6)]
            for line in slow:
                line.send("STAMP 0 0 17100000")
            image = b"P1\n1 1\n1\n"
            with Line(gate.port) as line:
                self.assertEqual(line.ask("PAINT 3 3 4 4"), "OK 1 1")
                self.assertEqual(line.ask(f"STAMP 0 0 {len(image)}", image), "OK 2 1")
            self.assertTrue(all(line.is_closed() for line in slow))
            for line in slow:
                line.close()

    def test_slow_readers(self):
        """Clients that read nothing of large dumps: the others go on, and they are closed."""
        flags = ("--links", "3", "--patience", "2")
        with Served(post(4096, HALF)) as server, Gate(server.port, *flags) as gate:
            slow = [Line(gate.port) for _ in range(30)]
            for line in slow:
                line.send("PIN", *["DUMP"] * 20)
            with Line(gate.port) as line:
                self.assertEqual(line.ask("PIN"), "OK 0")
                for _ in range(20):
                    self.assertEqual(line.ask("AT city 5 9"), "OK 2 5 7")
                reply, text = line.dump()
                self.assertEqual(reply, f"OK {len(text)}")
                self.assertLess(gate.memory(), 200)
                self.assertTrue(until(lambda: line.ask("PUBLISH").startswith("OK")))
                self.assertEqual(line.ask("UNPIN"), "OK 0")
                self.assertTrue(until(lambda: line.ask("COLLECT").split()[2] != "0"))
            for line in slow:
                line.close()

    def test_too_many_clients(self):
        with Served(post()) as server, Gate(server.port, "--clients", "3") as gate:
            lines = [Line(gate.port) for _ in range(3)]
            self.assertEqual({line.ask("HELLO") for line in lines}, {"ERR 11 UnknownCommand"})
            with Line(gate.port) as more:
                self.assertTrue(more.is_closed())
            lines.pop().close()
            self.assertTrue(until(gate.is_served))
            for line in lines:
                line.close()


class LostGateway(unittest.TestCase):
    """A gateway that ends, by a signal of each kind."""

    def test_clients_that_dont_wait_for_the_end(self):
        """They send QUIT and close at once: the gateway says nothing, and others are served."""
        with Served(post(), "--workers", "4") as server:
            gate = Gate(server.port, "--links", "3")
            lines = [Line(gate.port) for _ in range(100)]
            self.assertEqual({line.ask("PIN") for line in lines}, {"OK 0"})
            stop(gate.process.pid)
            for line in lines:
                line.socket.sendall(b"QUIT\n")
                line.close()
            gate.process.send_signal(signal.SIGCONT)
            with Line(gate.port) as line:
                self.assertEqual(line.ask("PIN"), "OK 0")
            self.assertEqual(gate.end(), "")

    def test_ends(self):
        for number, status in ((signal.SIGTERM, 0), (signal.SIGINT, 0), (signal.SIGKILL, -9)):
            with Served(post(), "--workers", "5") as server:
                gate = Gate(server.port, "--links", "3")
                with Line(gate.port) as one, Line(gate.port) as other, Line(server.port) as direct:
                    self.assertEqual([one.ask("PIN"), other.ask("PIN")], ["OK 0", "OK 0"])
                    self.assertEqual(direct.ask("PUBLISH"), "OK 1 1")
                    self.assertEqual(direct.ask("COLLECT"), "OK 2 0 0")
                    gate.process.send_signal(number)
                    self.assertEqual(gate.process.wait(20), status)
                    self.assertTrue(one.is_closed() and other.is_closed())
                    self.assertTrue(until(lambda: direct.ask("COLLECT").split()[2] == "1"))
                gate.end()


class Lost(unittest.TestCase):
    """Servers that end, are others, or aren't there."""

    def test_another_server(self):
        """Nobody is answered from the map of a server that has ended."""
        server = Served(post())
        with Gate(server.port, "--links", "3") as gate:
            lines = [Line(gate.port) for _ in range(4)]
            for line in lines[:2]:
                self.assertEqual(line.ask("PIN"), "OK 0")
                self.assertEqual(line.ask("AT city 5 7"), "OK 0 5 7")
            server.end()
            self.assertTrue(all(line.is_closed() for line in lines))
            with self.assertRaises(OSError):
                Line(gate.port)
            with Served(blank(64, 48), port=server.port):
                self.assertTrue(until(lambda: self.connects(gate)))
                with Line(gate.port) as line:
                    self.assertEqual(line.ask("PIN"), "OK 0")
                    self.assertEqual(line.ask("AT city 5 7"), "NONE")
            for line in lines:
                line.close()
            said = gate.end()
        self.assertIn("the server went away: all clients are closed", said)
        self.assertIn("there is a server again", said)

    def test_a_line_that_comes_before_the_loss(self):
        """The server is killed while the gateway stands still, with lines that wait: what is told
        is the loss, not a fault of step."""
        with Served(post()) as server, Gate(server.port, "--links", "2") as gate, \
                Line(gate.port) as one, Line(gate.port) as other:  # fmt: skip
            self.assertEqual(one.ask("PIN"), "OK 0")
            stop(gate.process.pid)
            one.send("UNPIN")
            other.send("PUBLISH")
            server.end()
            gate.process.send_signal(signal.SIGCONT)
            self.assertTrue(one.is_closed() and other.is_closed())
            self.assertTrue(gate.process.stderr.readline().endswith(
                b" the server went away: all clients are closed\n"))  # fmt: skip

    def connects(self, gate):
        try:
            Line(gate.port).close()
        except OSError:
            return False
        return True

    def test_a_change_whose_reply_is_lost(self):
        """The server stands still, and then ends: a change that was sent gets no reply."""
        server = Served(post())
        with Gate(server.port, "--links", "2") as gate, Line(gate.port) as line:
            self.assertEqual(line.ask("PAINT 0 0 1 1"), "OK 1 1")
            stop(server.process.pid)
            line.send("PAINT 1 0 2 1", "PIN")
            self.assertTrue(line.is_silent())
            server.end()
            self.assertTrue(line.is_closed())

    def test_no_server(self):
        gate = Gate(1)
        self.assertIsNone(gate.port)
        self.assertEqual(gate.process.wait(), 1)
        self.assertRegex(gate.end(), "^clearmap-gateway: no server listens on port 1\n$")

    def test_too_few_workers(self):
        with Served(post(), "--workers", "2") as server:
            gate = Gate(server.port, "--links", "3", "--patience", "1")
            self.assertEqual(gate.process.wait(), 1)
            self.assertRegex(gate.end(), "no worker of the server has answered within 1 s.*\n$")

    def test_a_port_that_is_taken(self):
        with Served(post()) as server:
            gate = Gate(server.port, "--listen", str(server.port))
            self.assertEqual(gate.process.wait(), 1)
            self.assertRegex(gate.end(), "^clearmap-gateway: port .* can't be had: .*\n$")

    def test_what_is_no_server(self):
        """What answers otherwise, more than asked, without an end or not as a dump does."""
        for replies in ([b"HTTP/1.1 400\r\n"], [b"ERR 6 NotPinned\nOK 1\n"], [b"O" * 200]):
            with Answering(replies) as fake:
                gate = Gate(fake.port, "--links", "2")
                self.assertEqual(gate.process.wait(), 1)
                self.assertRegex(gate.end(), "^clearmap-gateway: the server .*\n$")

    def test_a_server_out_of_step(self):
        """A reply that can't be one closes the clients: no line gets the reply of another one."""
        free = b"ERR 6 NotPinned\n"
        for line, last in (("PUBLISH", b"NO\n"), ("PIN", b"OK 1\nOK 2\n"), ("PIN", b"OK x\n")):
            with Answering([free, last]) as fake, Gate(fake.port, "--links", "2") as gate:
                with Line(gate.port) as one, Line(gate.port) as other:
                    one.send(line, "PIN")
                    self.assertTrue(one.is_closed())
                    self.assertTrue(other.is_closed())


if __name__ == "__main__":
    unittest.main()
