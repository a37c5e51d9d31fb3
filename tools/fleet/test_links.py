#!/usr/bin/env python3
"""Tests of links to Redis that are cut, stand still or are slow."""
import contextlib
import re
import socket
import threading
import time
import unittest

from test_publish import Publishes
from testing import PATIENCE, Direct, Publishing, clearmap, np, room, until


class Link:
    """Leads from a port of its own to another, until it stands still or is cut."""

    def __init__(self, port):
        self.far, self.is_still, self.pause, self.streams = port, False, 0, []
        self.listener = socket.create_server(("127.0.0.1", 0))
        self.url = f"redis://127.0.0.1:{self.listener.getsockname()[1]}"
        threading.Thread(target=self.serve, daemon=True).start()

    def __enter__(self):
        return self

    def __exit__(self, *_):
        self.listener.close()
        self.cut()

    def serve(self):
        with contextlib.suppress(OSError):  # the listener was closed
            while True:
                self.take(self.listener.accept()[0])

    def take(self, near):
        """Leads a connection on, if somebody listens there."""
        try:
            far = socket.create_connection(("127.0.0.1", self.far))
        except OSError:
            near.close()
            return
        self.streams += [near, far]
        for pair in ((near, far), (far, near)):
            threading.Thread(target=self.lead, args=pair, daemon=True).start()

    def lead(self, source, target):
        with contextlib.suppress(OSError, ValueError):
            while data := source.recv(4096):
                while self.is_still:
                    time.sleep(0.05)
                time.sleep(self.pause)
                target.sendall(data)
        for stream in (source, target):
            with contextlib.suppress(OSError):
                stream.shutdown(socket.SHUT_RDWR)

    def cut(self):
        """Ends all that goes through it."""
        for stream in self.streams:
            with contextlib.suppress(OSError):
                stream.shutdown(socket.SHUT_RDWR)
            stream.close()
        self.streams = []


class Loopback(Publishes):
    def setUp(self):
        super().setUp()
        self.server = self.serve(room(600, 500))
        self.painter = self.paint(self.server)
        self.link = self.enterContext(Link(self.redis.port))

    def linked(self):
        return self.enterContext(clearmap.Follower(self.link.url, "yard", timeout=1))

    def test_cut(self):
        self.publish(self.server.port, "--interval", "0.01")
        follower = self.linked()
        follower.wait(timeout=PATIENCE)
        for _ in range(6):
            self.has(follower, self.painter, self.painter.publish())
            self.link.cut()
        self.has(follower, self.painter, self.painter.publish())

    def test_still(self):
        """A follower whose link stands still says so, keeps what it has, and catches up."""
        self.publish(self.server.port, "--interval", "0.01")
        follower = self.linked()
        before = self.has(follower, self.painter, self.painter.publish())
        self.link.is_still = True
        number = self.painter.publish()
        is_late = lambda: re.search("[Tt]imeout|[Tt]imed out", follower.error or "")
        self.assertTrue(until(lambda: is_late() and follower.stale > 2), follower.error)
        self.assertIs(follower.version, before)
        self.link.is_still = False
        self.has(follower, self.painter, number)
        self.assertTrue(until(lambda: follower.error is None and follower.stale < 3))

    def test_cut_at_any_byte(self):
        """A follower that is cut off again and again takes whole versions alone."""
        self.publish(self.server.port, "--interval", "0.01")
        follower, end = self.linked(), time.monotonic() + 4
        number = self.painter.publish()
        while time.monotonic() < end:
            time.sleep(0.03)
            self.link.cut()
            with contextlib.suppress(clearmap.NoVersion):
                version = follower.version
                grid = self.painter.grid(version.number)
                self.assertTrue((version.map.grid() == grid).all())
            number = self.painter.publish()
        self.has(follower, self.painter, number)

    def test_slow(self):
        """A follower that takes longer for a map than its versions are kept has one in the end:
        the tiles that it has fetched aren't fetched again."""
        direct, source = Direct(self.redis, "large", 2), np.random.default_rng(5)
        grids = {1: source.random((1500, 2000)) < 0.5}
        direct.show(grids[1])
        self.link.pause = 0.02  # for each 4 KB
        follower = self.enterContext(clearmap.Follower(self.link.url, "large", timeout=5))
        end = time.monotonic() + 60
        while follower._version is None and time.monotonic() < end:
            grid, (y, x) = grids[direct.count].copy(), source.integers(1400, size=2)
            grid[y : y + 8, x : x + 8] ^= True
            grids[direct.count + 1] = grid
            direct.show(grid)
            time.sleep(0.2)  # longer than what a paint changes takes, and less than a map
        version = follower.version
        self.assertTrue((version.map.grid() == grids[version.number]).all())
        self.has(follower, _Known(grids), direct.count)

    def test_a_publisher_whose_link_is_lost(self):
        follower = self.follow()
        with Publishing(self.server.port, self.link.url) as publisher:
            before = self.has(follower, self.painter, self.painter.publish())
            self.link.is_still = True
            number = self.painter.publish()
            self.assertTrue(publisher.says("Redis: Timeout"))
            self.assertIs(follower.version, before)
            self.link.cut()
            self.link.is_still = False
            self.has(follower, self.painter, number)
            self.assertEqual(publisher.end(), 0)
            self.assertEqual(len(publisher.said), 2, publisher.said)


class _Known:
    """The grids of versions, as a painter knows them."""

    def __init__(self, grids):
        self.grid = grids.__getitem__


if __name__ == "__main__":
    unittest.main()
