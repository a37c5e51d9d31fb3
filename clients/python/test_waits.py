#!/usr/bin/env python3
"""Tests of how long a call waits, and of what ends it from outside."""
import contextlib
import os
import pathlib
import signal
import socket
import sys
import threading
import time
import unittest

sys.path.append(str(pathlib.Path(__file__).resolve().parent.parent.parent / "tools"))

import clearmap
from fakes import CHECKED, POST, SIZED, Fake
from served import Served


class Trickling:
    """A server that answers whatever comes by one byte after another, without an end."""

    def __init__(self, pause=0.05):
        self.pause = pause
        self.listener = socket.create_server(("127.0.0.1", 0))
        self.port = self.listener.getsockname()[1]
        self.thread = threading.Thread(target=self.serve)
        self.thread.start()

    def serve(self):
        with contextlib.suppress(OSError), self.listener.accept()[0] as stream:
            stream.recv(1000)
            while True:
                stream.sendall(b"0")
                time.sleep(self.pause)

    def __enter__(self):
        return self

    def __exit__(self, *_):
        self.listener.close()
        self.thread.join()


class Calling:
    """A call of another thread, and what it raised."""

    def __init__(self, call):
        self.raised = None
        self.thread = threading.Thread(target=self.run, args=(call,))
        self.thread.start()

    def run(self, call):
        try:
            call()
        except clearmap.ClearmapError as fault:
            self.raised = fault

    def ended(self):
        """What it raised, once it has ended: within some seconds."""
        self.thread.join(10)
        return self.raised


class Aborts(unittest.TestCase):
    def is_aborted(self, client, call):
        """Another thread's call ends at once, and no later call is sent."""
        calling, until = Calling(call), time.monotonic() + 10
        while not client._connection.busy and time.monotonic() < until:
            time.sleep(0.01)
        time.sleep(0.1)
        self.assertTrue(calling.thread.is_alive())
        client.abort()
        self.assertEqual(str(calling.ended()), "the connection was aborted")
        for later in (client.publish, client.pin):
            self.assertRaises(clearmap.ConnectionLost, later)
        client.abort()
        client.close()

    def test_a_call_that_waits(self):
        for seconds in (None, 60):
            with Fake(closes=False) as fake:
                client = clearmap.Client(fake.port, timeout=seconds)
                self.is_aborted(client, client.publish)
            with Fake(b"OK 0\n", closes=False) as fake:
                client = clearmap.Client(fake.port, timeout=seconds)
                pinned = client.pin()
                self.is_aborted(client, lambda: pinned.at(0, 0))

    def test_a_call_that_sends(self):
        with socket.create_server(("127.0.0.1", 0)) as listener:
            client = clearmap.Client(listener.getsockname()[1], timeout=None)
            self.is_aborted(client, lambda: client.stamp(0, 0, bytes(17_000_000)))

    def test_a_call_that_reconnects(self):
        """The new connection is aborted, though its map isn't checked yet."""
        with Fake(*SIZED, b"OK", then=CHECKED[:2]) as fake:
            client = clearmap.Client(fake.port, timeout=None, reconnect=True)
            self.assertRaises(clearmap.ConnectionLost, client.publish)
            client._connection.busy = False  # of the call that was lost
            self.is_aborted(client, client.publish)

    def test_no_call_that_waits(self):
        """Whoever waits for its turn is told too, and what was accepted stays accepted."""
        with Served(POST) as server:
            client = clearmap.Client(server.port, reconnect=True)
            pinned = client.pin()
            client.paint(0, 0, 1, 1)
            client.abort()
            for call in (client.publish, lambda: pinned.at(0, 0), lambda: client.pin()):
                self.assertRaises(clearmap.ConnectionLost, call)
            with clearmap.Client(server.port) as other:
                self.assertEqual(other.publish(), 1)
                self.assertEqual(other.pin().at(0, 0).distance, 0)

    def test_by_a_handler(self):
        with Fake(closes=False) as fake:
            client = clearmap.Client(fake.port, timeout=None)
            old = signal.signal(signal.SIGALRM, lambda *_: client.abort())
            try:
                signal.setitimer(signal.ITIMER_REAL, 0.2)
                with self.assertRaisesRegex(clearmap.ConnectionLost, "was aborted"):
                    client.publish()
            finally:
                signal.signal(signal.SIGALRM, old)

    def test_by_a_child(self):
        """It leaves the connection to its parent."""
        with Served(POST) as server, clearmap.Client(server.port) as client:
            child = os.fork()
            if child == 0:
                client.abort()
                os._exit(0)
            self.assertEqual(os.waitpid(child, 0)[1], 0)
            self.assertEqual(client.publish(), 1)

    def test_many(self):
        """Between the steps of calls: each answers rightly, or says that it was lost."""
        with Served(POST) as server:
            for turn in range(60):
                client = clearmap.Client(server.port, reconnect=True)
                found = set()

                def asks():
                    while True:
                        with client.pin() as pinned:
                            found.add(pinned.at(0, 0).distance)

                calling = Calling(asks)
                time.sleep(turn * 1e-4)
                client.abort()
                self.assertIsInstance(calling.ended(), clearmap.ConnectionLost)
                self.assertLessEqual(found, {5})


class CallTimeouts(unittest.TestCase):
    def late(self, said, call, least, most=5.0):
        begun = time.monotonic()
        with self.assertRaisesRegex(clearmap.TimedOut, said):
            call()
        self.assertTrue(least <= time.monotonic() - begun < most, time.monotonic() - begun)

    def test_bytes_that_trickle(self):
        """Each comes in time, and the reply doesn't end."""
        for seconds in (10, None):
            with Trickling() as server:
                client = clearmap.Client(server.port, timeout=seconds, call_timeout=0.7)
                self.late("within the call's 0.7 s", client.publish, 0.7)
                self.assertRaisesRegex(clearmap.ConnectionLost, "is closed", client.publish)

    def test_many_replies(self):
        """Each comes in time, and all of them don't."""
        with Fake(b"OK 0\n", closes=False) as fake:
            client = clearmap.Client(fake.port, timeout=0.5, call_timeout=60)
            pinned = client.pin()
            self.late("^no reply within 0.5 s$", lambda: pinned.at(0, 0), 0.5)

    def test_bytes_that_are_not_taken(self):
        with socket.create_server(("127.0.0.1", 0)) as listener:
            port = listener.getsockname()[1]
            client = clearmap.Client(port, timeout=None, call_timeout=0.5)
            stamp = lambda: client.stamp(0, 0, bytes(17_000_000))
            self.late("^the server took no bytes within the call's 0.5 s$", stamp, 0.5)

    def test_a_connection_that_is_made_anew(self):
        """Its check of the map is a part of the call."""
        with Fake(*SIZED, b"OK", then=CHECKED[:2]) as fake:
            client = clearmap.Client(fake.port, reconnect=True, call_timeout=1)
            self.assertRaises(clearmap.ConnectionLost, client.publish)
            self.late("^no reply within the call's 1 s$", client.publish, 1)

    def test_each_call_anew(self):
        with Served(POST) as server:
            with clearmap.Client(server.port, timeout=60, call_timeout=3) as client:
                for _ in range(2):
                    with client.pin() as pinned:
                        self.assertEqual(pinned.at(0, 0).distance, 5)
                        time.sleep(1.6)

    def test_no_time(self):
        for seconds in (0, -1, float("nan")):
            with self.assertRaisesRegex(ValueError, "more than 0"):
                clearmap.Client(1, call_timeout=seconds)
        with Fake(b"OK 7\n") as fake:
            with clearmap.Client(fake.port, call_timeout=float("inf")) as client:
                self.assertEqual(client.revert(), 7)


if __name__ == "__main__":
    unittest.main()
