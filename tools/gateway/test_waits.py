#!/usr/bin/env python3
"""Tests of what a gateway waits for, and for how long: half-closed clients that watch, servers that
hang, stamps that don't come, and its own port."""
import asyncio
import contextlib
import os
import random
import signal
import socket
import threading
import time
import unittest
from unittest import mock

from testing import Gate, Line, Served, post, until
from test_lost import stop
import clearmap_gateway
from limits import LARGEST_STAMP, Room

STAMP = b"P1\n1 1\n1\n"
ASKED = 3000


def connects(gate):
    """Whether a client can connect."""
    try:
        Line(gate.port).close()
    except OSError:
        return False
    return True


class HalfClosed(unittest.TestCase):
    def test_who_watches(self):
        """A client that has sent all, and watches, gets each reply while others publish."""
        with Served(post(), "--versions", "64", "--workers", "8") as server, \
                Gate(server.port, "--links", "4") as gate:  # fmt: skip
            ended = threading.Event()
            painter = threading.Thread(target=self.publish, args=(gate, ended))
            painter.start()
            try:
                for _ in range(20):
                    self.ask(gate)
            finally:
                ended.set()
                painter.join()

    def publish(self, gate, ended):
        with Line(gate.port) as line:
            while not ended.is_set():
                line.ask("PUBLISH")
                line.ask("COLLECT")

    def ask(self, gate):
        with Line(gate.port) as line:
            line.send("WATCH", "PIN", *["AT city 5 7"] * ASKED, "UNPIN")
            line.socket.shutdown(socket.SHUT_WR)
            said = line.replies.read().decode().splitlines()
        replies = [reply for reply in said if not reply.startswith("VERSION ")]
        self.assertEqual(replies[2:-1], ["OK 0 5 7"] * ASKED)
        self.assertEqual((len(replies), replies[1]), (ASKED + 3, replies[-1]))
        told = [int(reply.split()[1]) for reply in said if reply.startswith("VERSION ")]
        self.assertEqual(told, sorted(set(told)))


class Hung(unittest.TestCase):
    def test_a_server_that_hangs(self):
        """A line that the server doesn't answer closes the clients after the patience."""
        for line in ("PIN", "PUBLISH", "DUMP"):
            with self.subTest(line=line), Served(post()) as server, \
                    Gate(server.port, "--links", "3", "--patience", "2") as gate:  # fmt: skip
                asking, idle, begun = Line(gate.port), Line(gate.port), 0.0
                self.assertEqual(idle.ask("PIN"), "OK 0")
                if line == "DUMP":
                    self.assertEqual(asking.ask("PIN"), "OK 0")
                stop(server.process.pid)
                begun = time.monotonic()
                asking.send(line)
                self.assertTrue(asking.is_closed() and idle.is_closed())
                self.assertLess(time.monotonic() - begun, 5)
                self.assertFalse(connects(gate))
                server.process.send_signal(signal.SIGCONT)
                self.assertTrue(until(lambda: connects(gate)))
                with Line(gate.port) as again:
                    self.assertRegex(again.ask("PIN"), "^OK [01]$")
                asking.close()
                idle.close()
                said = gate.end()
                self.assertIn("the server hasn't answered for 2 s: all clients are closed", said)

    def test_a_server_that_is_slow(self):
        """An answer that comes late, and within the patience, is the client's."""
        with Served(post()) as server, Gate(server.port, "--patience", "6") as gate:
            with Line(gate.port) as line:
                for _ in range(3):
                    stop(server.process.pid)
                    line.send("PUBLISH")
                    self.assertTrue(line.is_silent(2.5))
                    server.process.send_signal(signal.SIGCONT)
                    self.assertRegex(line.reply(), "^OK ")


class Stamps(unittest.TestCase):
    flags = ("--links", "2", "--patience", "4")

    def seconds(self, line):
        """How long a small stamp takes."""
        begun = time.monotonic()
        self.assertRegex(line.ask(f"STAMP 0 0 {len(STAMP)}", STAMP), "^OK ")
        return time.monotonic() - begun

    def test_those_that_never_come(self):
        """Eight large ones of which nothing comes hold up no other, and are closed."""
        with Served(post()) as server, Gate(server.port, *self.flags) as gate, \
                contextlib.ExitStack() as slow:  # fmt: skip
            lines = [slow.enter_context(Line(gate.port)) for _ in range(8)]
            for line in lines:
                line.send(f"STAMP 0 0 {LARGEST_STAMP}")
            with Line(gate.port) as line:
                self.assertLess(max(self.seconds(line) for _ in range(5)), 1)
            begun = time.monotonic()
            self.assertTrue(all(line.is_closed() for line in lines))
            self.assertLess(time.monotonic() - begun, 6)

    def test_those_that_come_in_part(self):
        """They fill the room that there is: others wait no longer than the patience."""
        with Served(post()) as server, Gate(server.port, *self.flags) as gate, \
                contextlib.ExitStack() as slow:  # fmt: skip
            for _ in range(8):
                line = slow.enter_context(Line(gate.port))
                line.send(f"STAMP 0 0 {LARGEST_STAMP}")
                line.socket.setblocking(False)
                with contextlib.suppress(BlockingIOError):
                    line.socket.sendall(bytes(5_000_000))
            time.sleep(1)
            with Line(gate.port) as line:
                self.assertLess(self.seconds(line), 5)
            self.assertLess(gate.memory(), 200)

    def test_many_large_ones_at_once(self):
        """Together they are over the room, and all of them come; each is answered."""
        replies = []

        def send(port):
            with Line(port) as line:
                body = STAMP + bytes(12_000_000)
                replies.append(line.ask(f"STAMP 0 0 {len(body)}", body)[:3])

        with Served(post(), "--workers", "4") as server, Gate(server.port, "--links", "2") as gate:
            threads = [threading.Thread(target=send, args=(gate.port,)) for _ in range(8)]
            for thread in threads:
                thread.start()
            for thread in threads:
                thread.join()
        self.assertEqual(replies, ["OK "] * 8)

    def test_the_room(self):
        """Whatever is taken and returned: all but the oldest keep to the room, and that one can
        always go on."""
        chance, room, shares = random.Random(5), Room(100), []
        for _ in range(20_000):
            draw = chance.random()
            if draw < 0.1 or not shares:
                shares.append(room.share(lambda: None))
            elif draw < 0.15:
                shares.pop(chance.randrange(len(shares))).leave()
            else:
                share = chance.choice(shares)
                share.take(chance.randint(0, min(share.left(), 60)))
            self.assertLessEqual(sum(share.held for share in shares[1:]), 100)
            if shares:
                self.assertEqual(shares[0].left(), LARGEST_STAMP - shares[0].held)
                self.assertTrue(all(share.left() >= 0 for share in shares))


class OwnPort(unittest.TestCase):
    def test_taken_while_the_server_is_away(self):
        """It says once why it can't come back, and comes back once it can."""
        server = Served(post())
        with Gate(server.port, "--links", "2") as gate:
            server.end()
            self.assertTrue(until(lambda: not connects(gate)))
            with socket.create_server(("127.0.0.1", gate.port)), \
                    Served(post(), port=server.port) as again:  # fmt: skip
                time.sleep(4)
                self.assertIsNone(gate.process.poll())
            with Served(post(), port=again.port):
                self.assertTrue(until(lambda: connects(gate)))
                said = gate.end()
        self.assertEqual(said.count(f"port {gate.port} can't be had: "), 1, said)
        self.assertIn("there is a server again", said)


class Ends(unittest.TestCase):
    """How serving ends, whatever is waited for."""

    def serve(self, run):
        with mock.patch.object(clearmap_gateway.Gateway, "run", run):
            asyncio.run(clearmap_gateway.serve(None))

    def setUp(self):
        self.enterContext(mock.patch.object(clearmap_gateway.Gateway, "__init__", lambda *_: None))

    def test_by_nobody(self):
        """Without a signal it doesn't end in silence."""

        async def run(_):
            raise asyncio.CancelledError

        self.assertRaises(asyncio.CancelledError, self.serve, run)

    def test_a_wait_that_swallows_the_end(self):
        """It is told again."""
        told = []

        async def run(_):
            os.kill(os.getpid(), signal.SIGTERM)
            while len(told) < 2:
                try:
                    await asyncio.sleep(60)
                except asyncio.CancelledError:
                    told.append(True)
            await asyncio.sleep(60)

        begun = time.monotonic()
        self.serve(run)
        self.assertEqual(len(told), 2)
        self.assertLess(time.monotonic() - begun, 5)


if __name__ == "__main__":
    unittest.main()
