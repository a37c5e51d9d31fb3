#!/usr/bin/env python3
"""Tests of clearmap-publish that is killed between any two writes, and at random; of followers
that are killed; and of two publishers that take the name from one another again and again."""
import random
import signal
import subprocess
import sys
import threading
import time
import unittest

from test_publish import Publishes
from testing import HERE, PATIENCE, Keys, clearmap, room, until

KEYS = Keys("yard")
FOLLOWING = """
import sys, time
import clearmap
with clearmap.Follower(sys.argv[1], "yard") as follower:
    last = None
    while True:
        version = follower.wait(newer_than=last)
        assert last is None or version.order > last.order
        print(version.number, flush=True)
        last = version
"""


class Killed(Publishes):
    def test_at_each_write(self):
        """Wherever it is killed, each kept version is whole, and nothing older is taken. The next
        publisher goes on from there, and leaves no tile that nobody names."""
        server = self.serve(room(600, 500, share=0.001))
        painter, follower = self.paint(server), self.follow()
        with self.publish(server.port, "--keep", "2") as publisher:
            for _ in range(3):
                before = self.has(follower, painter, painter.publish())
            publisher.end()
        for count in range(1, 200):
            number = painter.publish(6)
            if not self.killed(server.port, str(count)):
                break
            kept = self.redis.stored("yard")
            self.assertLessEqual(len(kept), 2)
            self.assertGreaterEqual(max(kept), before.order)
            before = follower.version
            self.assertTrue((before.map.grid() == painter.grid(before.number)).all())
        self.assertGreater(count, 8)
        self.has(follower, painter, number)
        self.redis.client.delete(KEYS.lease)
        self.publish(server.port, "--keep", "2")
        self.has(follower, painter, painter.publish())
        self.assertTrue(until(lambda: not self.redis.strays("yard")))

    def killed(self, port, count):
        """Whether a publisher is killed there, and not before it has published all and more."""
        self.redis.client.delete(KEYS.lease)  # of the one that was killed before
        words = [sys.executable, str(HERE / "killed_at.py"), count, "--port", str(port)]
        words += ["--redis", self.redis.url, "--name", "yard", "--keep", "2"]
        process = subprocess.Popen(words, stdout=subprocess.PIPE, stderr=subprocess.DEVNULL)
        with process, process.stdout:
            is_through = bool(process.stdout.readline())
            process.kill()
            return process.wait(PATIENCE) == -signal.SIGKILL and not is_through

    def test_at_random(self):
        """Publishers are killed at any time while the map changes; readers see whole versions."""
        server = self.serve()
        painter, follower = self.paint(server), self.follow()
        source = random.Random(3)
        for _ in range(6):
            with self.publish(server.port, "--interval", "0.01") as publisher:
                end = time.monotonic() + source.uniform(0.4, 1.5)
                while time.monotonic() < end:
                    number = painter.publish()
                publisher.end(signal.SIGKILL)
            self.redis.stored("yard")
            self.redis.client.delete(KEYS.lease)
        self.publish(server.port)
        self.has(follower, painter, number)

    def test_followers(self):
        """Followers that are killed leave nothing, and the others go on."""
        server = self.serve()
        painter, follower = self.paint(server), self.follow()
        self.publish(server.port, "--interval", "0.01")
        started = [self.following() for _ in range(4)]
        for process in started:
            self.has(follower, painter, painter.publish())
            self.assertTrue(process.stdout.readline())
            process.kill()
            process.wait()
        number = painter.publish()
        self.has(follower, painter, number)
        is_gone = lambda: self.redis.client.pubsub_numsub(KEYS.news)[0][1] == 1
        self.assertTrue(until(is_gone))

    def following(self):
        """A process that follows."""
        words = [sys.executable, "-c", FOLLOWING, self.redis.url]
        package = {"PYTHONPATH": str(HERE.parent.parent / "clients/python")}
        process = subprocess.Popen(words, stdout=subprocess.PIPE, env=package)
        self.addCleanup(process.stdout.close)
        self.addCleanup(process.wait)
        self.addCleanup(process.kill)
        return process


class TakingTurns(Publishes):
    def test_two_maps_under_one_name(self):
        """Two publishers of different maps are killed and started in turn. A follower's order only
        grows, and each version is whole, and the one that its run and number say."""
        servers = [self.serve(room(seed=seed)) for seed in (1, 2)]
        painters = [self.paint(server, seed) for seed, server in enumerate(servers)]
        seen, ended = [], threading.Event()
        follower = self.follow()
        watcher = threading.Thread(target=self.watch, args=(follower, seen, ended), daemon=True)
        watcher.start()
        for turn in range(8):
            painter, server = painters[turn % 2], servers[turn % 2]
            with self.publish(server.port, "--interval", "0.01", "--take-over"):
                known = follower._version.order if follower._version else 0
                number = painter.publish()
                is_ours = lambda: (follower.version.order > known
                                   and follower.version.number == number)  # fmt: skip
                self.assertTrue(follower.wait(timeout=PATIENCE) and until(is_ours))
                for _ in range(3):
                    painter.publish()
            self.redis.client.delete(KEYS.lease)
        ended.set()
        watcher.join()
        orders = [version.order for version in seen]
        self.assertEqual(orders, sorted(set(orders)))
        self.assertGreater(len(seen), 4)
        for version in seen:
            grids = (painter.grid(version.number) for painter in painters
                     if version.number in painter.known)  # fmt: skip
            self.assertTrue(any((version.map.grid() == grid).all() for grid in grids))

    def watch(self, follower, seen, ended):
        """Gathers each version that comes."""
        while not ended.is_set():
            try:
                seen.append(follower.wait(seen[-1] if seen else None, 0.2))
            except clearmap.NoVersion:
                pass


if __name__ == "__main__":
    unittest.main()
