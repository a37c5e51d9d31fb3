#!/usr/bin/env python3
"""Tests of clearmap-publish: one publisher of a name is live, and what its command line says."""
import os
import pathlib
import signal
import socket
import subprocess
import sys
import time
import unittest

from places import here_of
from test_publish import Publishes
from testing import HERE, PATIENCE, Direct, Keys, Redis, clearmap, np, room, until

KEYS = Keys("yard")
SCRIPT = HERE / "clearmap_publish.py"


class Leases(Publishes):
    """One publisher of a name is live."""

    def test_a_second_one(self):
        server, other = self.serve(room(seed=1)), self.serve(room(seed=2))
        painter, follower = self.paint(server), self.follow()
        first = self.publish(server.port)
        self.has(follower, painter, 0)
        second = self.publish(other.port)
        self.assertEqual(second.process.wait(PATIENCE), 1)
        self.assertTrue(second.says("another publisher of 'yard' is live"))
        self.assertEqual(len(second.said), 1, second.said)
        self.has(follower, painter, painter.publish())
        self.assertEqual(first.end(), 0)
        third = self.publish(other.port, "--take-over")  # at once, as the lease was left
        self.assertTrue(until(lambda: follower.version.number == 0))
        self.assertEqual(third.said, [])

    def test_a_killed_one(self):
        """Its lease ends by itself, and the next one takes over."""
        server = self.serve()
        painter, follower = self.paint(server), self.follow()
        first = self.publish(server.port)
        before = self.has(follower, painter, 0)
        first.end(signal.SIGKILL)
        begun = time.monotonic()
        self.publish(server.port)
        number = painter.publish()
        self.assertGreater(self.has(follower, painter, number).order, before.order)
        self.assertLess(time.monotonic() - begun, 25)

    def test_one_that_was_held_up(self):
        """A publisher that stood still while another took over shows nothing any more."""
        server, other = self.serve(room(seed=1)), self.serve(room(seed=2))
        follower = self.follow()
        first = self.publish(server.port)
        self.has(follower, self.paint(server), 0)
        first.process.send_signal(signal.SIGSTOP)
        self.redis.client.delete(KEYS.lease)  # as if its time had ended
        self.publish(other.port, "--take-over")
        painter = self.paint(other, 2)
        self.has(follower, painter, painter.publish())
        first.process.send_signal(signal.SIGCONT)
        self.assertEqual(first.process.wait(PATIENCE), 1)
        self.assertTrue(first.says("another publisher of 'yard' is live"))
        self.has(follower, painter, painter.publish())


class Names(Publishes):
    """A name's versions come from one place: a host, and its server's port."""

    def setUp(self):
        super().setUp()
        self.server, self.other = self.serve(room(seed=1)), self.serve(room(seed=2))
        self.painter, self.follower = self.paint(self.server), self.follow()
        self.host = socket.gethostname()

    def lose(self):
        """A publisher that is killed after its first version, and whose lease has ended."""
        with self.publish(self.server.port) as first:
            version = self.has(self.follower, self.painter, 0)
            first.end(signal.SIGKILL)
        self.redis.client.delete(KEYS.lease)
        return version

    def test_another_server(self):
        """At the first one's outage another server under its name isn't published."""
        version = self.lose()
        second = self.publish(self.other.port)
        self.assertEqual(second.process.wait(PATIENCE), 1)
        places = f"{self.host}:{self.server.port}, and this is {self.host}:{self.other.port}"
        self.assertTrue(second.says(f"'yard' was published last from {places}: take another name"))
        self.assertEqual(len(second.said), 1, second.said)
        self.assertIs(self.follower.version, version)
        self.assertEqual(self.redis.client.ttl(KEYS.publisher), -1)
        self.publish(self.server.port)
        self.assertGreater(self.has(self.follower, self.painter, self.painter.publish()).order,
                           version.order)  # fmt: skip

    def test_a_map_that_has_moved(self):
        """It is told once; the place before it is refused then."""
        self.lose()
        painter = self.paint(self.other)
        with self.publish(self.other.port, "--take-over") as second:
            self.has(self.follower, painter, painter.publish())
            self.assertEqual(second.end(), 0)
        with self.publish(self.other.port) as second:
            self.has(self.follower, painter, painter.publish())
            self.assertEqual(second.end(), 0)
        first = self.publish(self.server.port)
        self.assertEqual(first.process.wait(PATIENCE), 1)
        self.assertTrue(first.says(f"published last from {self.host}:{self.other.port}"))

    def test_a_place_that_is_lost(self):
        """Somebody deletes it: it is written again."""
        self.publish(self.server.port)
        self.has(self.follower, self.painter, 0)
        self.redis.client.delete(KEYS.publisher)
        told, mine = lambda: self.redis.client.get(KEYS.publisher), here_of(self.server.port).place
        self.assertTrue(until(lambda: told() == mine.encode()))
        self.redis.client.set(KEYS.publisher, "hall:7400")
        self.assertTrue(until(lambda: told() == mine.encode()))

    def test_a_host_that_is_expected(self):
        """A follower takes what this host publishes, and says of others who they are."""
        here = [self.follow(host=self.host), self.follow(host=f"{self.host}:{self.server.port}")]
        others = [self.follow(host="hall"), self.follow(host=f"{self.host}:1"),
                  self.follow(host=str(self.server.port))]  # fmt: skip
        publisher = self.publish(self.server.port)
        versions = [self.has(follower, self.painter, 0) for follower in here]
        place = f"{self.host}:{self.server.port}"
        for follower, expected in zip(others, ("hall", f"{self.host}:1")):
            with self.assertRaisesRegex(clearmap.NoVersion, f"from {place}, and {expected} is exp"):
                follower.wait(timeout=1)
        for follower in others:
            self.assertIsNone(follower._version)
        publisher.end()
        painter = self.paint(self.other)
        self.publish(self.other.port, "--take-over")
        self.has(here[0], painter, painter.publish())
        self.assertTrue(until(lambda: "isn't taken" in (here[1].error or "")))
        self.assertRegex(here[1].error, f"isn't taken: it is from {self.host}:{self.other.port}")
        self.assertIs(here[1].version, versions[1])
        self.assertTrue(until(lambda: here[1].stale > 1.5))

    def test_a_redis_that_has_forgotten(self):
        """A follower keeps to the place of its version, until another one has taken over."""
        grids = [np.random.default_rng(seed).random((300, 400)) < 0.05 for seed in range(5)]
        Direct(self.redis, port=1).show(grids[0])
        first = self.follower.wait(timeout=PATIENCE)
        self.redis.client.flushall()
        Direct(self.redis, port=2).show(grids[1])
        self.assertTrue(until(lambda: "isn't taken" in (self.follower.error or "")))
        places = f"it is from {self.host}:2, and that here from {self.host}:1$"
        self.assertRegex(self.follower.error, places)
        self.assertIs(self.follower.version, first)
        for takes_over, grid in ((True, grids[2]), (False, grids[3])):
            self.redis.client.delete(KEYS.lease)
            record = Direct(self.redis, port=2, takes_over=takes_over).show(grid)
            late = self.follow()
            late._place = f"{self.host}:1"  # as one that has slept since
            for follower in (self.follower, late):
                self.assertTrue(until(lambda: follower._version and
                                      follower.version.hash == record.hash))  # fmt: skip
        self.redis.client.flushall()
        record = Direct(self.redis, port=2).show(grids[4])
        self.assertTrue(until(lambda: self.follower.version.hash == record.hash))

    def test_a_publisher_that_isnt_told(self):
        """Whoever expects a host takes nothing whose host isn't known."""
        Direct(self.redis).show(np.eye(300, 400) > 0)
        self.redis.client.delete(KEYS.publisher)
        with self.assertRaisesRegex(clearmap.NoVersion, "it doesn't tell its publisher, and depot"):
            self.follow(host="depot").wait(timeout=1)


class Words(unittest.TestCase):
    """Its command line, and what isn't installed."""

    def told(self, *words, **others):
        line = [sys.executable, str(SCRIPT), *words]
        run = subprocess.run(line, capture_output=True, text=True, timeout=PATIENCE, **others)
        return run.returncode, run.stderr.strip().splitlines()[-1]

    def test_refused(self):
        good = ("--port", "7400", "--name", "yard")
        for words in ((), ("--port", "0", "--name", "yard"), ("--port", "7400"),
                      ("--port", "7400", "--name", "a b"), (*good, "--keep", "0"),
                      (*good, "--keep", "65"), (*good, "--interval", "0"),
                      (*good, "--interval", "nan"), (*good, "--interval", "61"),
                      (*good, "--size", "40"), (*good, "--size", "0x5"),
                      (*good, "--size", "4097x5"), (*good, "--size", "5 x 5"),
                      (*good, "--place", "a b"), (*good, "--place", "a:1"),
                      (*good, "--place", "")):  # fmt: skip
            status, line = self.told(*words)
            self.assertEqual(status, 2, words)
            self.assertRegex(line, "^clearmap-publish: error: ")

    def test_no_url(self):
        status, line = self.told("--port", "7400", "--name", "yard", "--redis", "depot:6379")
        self.assertEqual(status, 1)
        self.assertRegex(line, "^clearmap-publish: Redis URL must")

    def test_no_module(self):
        """Without python3-redis one line says what to install."""
        folder = pathlib.Path(self.enterContext(Redis()).folder.name)
        (folder / "redis.py").write_text("raise ImportError('there is none')\n")
        status, line = self.told("--port", "7400", "--name", "yard",
                                 env={**os.environ, "PYTHONPATH": str(folder)})  # fmt: skip
        self.assertEqual(status, 1)
        self.assertRegex(line, "^clearmap-publish: there is no redis, .*python3-redis")


if __name__ == "__main__":
    unittest.main()
