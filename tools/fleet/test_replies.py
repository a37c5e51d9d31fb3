#!/usr/bin/env python3
"""Tests of a follower whose Redis sends what it wasn't asked for: too much, or too little."""
import contextlib
import os
import re
import socket
import subprocess
import sys
import threading
import unittest

from test_follower import Follows, grid_of
from testing import HERE, Keys, clearmap, until

KEYS = Keys("yard")
LARGE = """
import resource, sys, time
import clearmap, numpy, redis
most = lambda: resource.getrusage(resource.RUSAGE_SELF).ru_maxrss // 1024
with clearmap.Follower("redis://127.0.0.1:1", "yard") as follower:
    time.sleep(0.5)
before = most()
with clearmap.Follower(sys.argv[1], "yard") as follower:
    while follower.error is None:
        time.sleep(0.05)
    time.sleep(2)
    print(follower.error)
print(most() - before)
"""
PACKAGE = {**os.environ, "PYTHONPATH": str(HERE.parent.parent / "clients/python")}


class Answering:
    """A Redis whose replies to one command are others, by the bytes that are sent and come."""

    def __init__(self, port, asked, instead):
        self.asked, self.instead, self.port = asked, instead, port
        self.listener = socket.create_server(("127.0.0.1", 0))
        self.url = f"redis://127.0.0.1:{self.listener.getsockname()[1]}"
        threading.Thread(target=self.serve, daemon=True).start()

    def __enter__(self):
        return self

    def __exit__(self, *_):
        self.listener.close()

    def serve(self):
        with contextlib.suppress(OSError):
            while True:
                near = self.listener.accept()[0]
                far = socket.create_connection(("127.0.0.1", self.port))
                threading.Thread(target=self.lead, args=(near, far), daemon=True).start()

    def lead(self, near, far):
        """Leads whole writes of a client, which are short, and what comes of each."""
        with near, far, contextlib.suppress(OSError):
            while sent := near.recv(65_536):
                far.sendall(sent)
                far.settimeout(0.3)
                came = b""
                with contextlib.suppress(socket.timeout):
                    while data := far.recv(1 << 20):
                        came += data
                near.sendall(self.instead(came) if self.asked in sent else came)


class Replies(Follows):
    """Replies that no Redis with versions of a publisher gives."""

    def refused(self, asked, instead, said):
        """One reply is another: it isn't taken, and a sentence says so."""
        self.direct.show(grid_of(1))
        with Answering(self.redis.port, asked, instead) as link, \
                clearmap.Follower(link.url, "yard") as follower:  # fmt: skip
            self.assertTrue(until(lambda: follower.error is not None))
            self.assertRegex(follower.error, said)
            self.assertIsNone(follower._version)

    def test_fewer_tiles_than_asked_for(self):
        less = lambda came: came.replace(b"*6\r\n", b"*2\r\n", 1)
        self.refused(b"HMGET", less, "asked for 6 tiles and sends another number$")

    def test_a_time_of_one_number(self):
        less = lambda came: re.sub(rb"\*2(\r\n.*?\r\n.*?\r\n).*", rb"*1\1", came, flags=re.DOTALL)
        self.refused(b"TIME", less, "Redis tells its time in another form: ")

    def test_large_values(self):
        """However large they are, the follower's memory stays: it reads no more than it asks for.
        """
        record = self.direct.show(grid_of(1))
        large = b"x" * 80_000_000
        client = self.redis.client
        for spoil in (lambda: client.setrange(KEYS.newest, len(large), b"1"),
                      lambda: client.setrange(KEYS.seen, len(large), b"1"),
                      lambda: client.hset(KEYS.versions, record.order, large),
                      lambda: client.hset(KEYS.tiles, record.tiles[0], large)):  # fmt: skip
            spoil()
            told = subprocess.run([sys.executable, "-c", LARGE, self.redis.url], env=PACKAGE,
                                  capture_output=True, text=True)  # fmt: skip
            error, grown = told.stdout.splitlines()
            self.assertRegex(error, "Redis sends a longer reply than any that a follower asks for$")
            self.assertLess(int(grown), 8)  # MB
            client.flushall()
            self.direct.store.take()
            record = self.direct.show(grid_of(1))


if __name__ == "__main__":
    unittest.main()
