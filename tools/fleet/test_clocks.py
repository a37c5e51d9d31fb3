#!/usr/bin/env python3
"""Tests of a Redis whose clock was set back: what followers say of ages, and whose the name is."""
import dataclasses
import signal
import time
import unittest
from unittest import mock

from test_publish import Publishes
from testing import PATIENCE, Direct, Keys, clearmap, clock, np, until

KEYS = Keys("yard")
SLACK = 0.3  # seconds by which an age may be too small
HOUR = 3600


class Ages(Publishes):
    def test_a_clock_of_redis_that_was_set_back(self):
        """A time that isn't yet is taken as now."""
        direct = Direct(self.redis)
        direct.show(np.eye(300, 400) > 0)
        direct.store._clock = int(1e6 * (time.time() + HOUR)), clock.now()
        direct.store.keep(clock.now())
        seen = int(self.redis.client.get(KEYS.seen))
        self.assertLess(abs(seen / 1e6 - time.time()), 60)

    def test_a_time_that_isnt_yet(self):
        """Nobody knows when it was: the version goes on ageing until a sign comes again."""
        direct, follower = Direct(self.redis), self.follow()
        direct.show(np.eye(300, 400) > 0)
        version = follower.wait(timeout=PATIENCE)
        direct.store.keep(clock.now())
        self.assertTrue(until(lambda: version.stale < 1))
        known = clock.now() - version.stale
        self.redis.client.set(KEYS.seen, int(1e6 * (time.time() + HOUR)))
        for _ in range(100):
            self.assertGreater(version.stale, clock.now() - known - SLACK)
            time.sleep(0.04)
        self.assertIn("nobody tells that its version is the newest", follower.error)

        def is_fresh():  # a follower looks about once a second: by then the time is new again
            direct.store.keep(clock.now())
            return follower.stale < 1

        self.assertTrue(until(is_fresh))

    def test_who_starts_after_a_setback(self):
        """The publisher is dead, and by Redis' clock its last sign isn't yet, is now, or was a
        short while ago: nobody who starts then takes the version for a new one."""
        direct = Direct(self.redis)
        direct.show(np.eye(300, 400) > 0)
        for ahead in (HOUR, 2, 0.5, 0, -0.5):
            self.redis.client.set(KEYS.seen, int(1e6 * (time.time() + ahead)))
            with clearmap.Follower(self.redis.url, "yard") as follower:
                version = follower.wait(timeout=PATIENCE)
                for _ in range(80):
                    self.assertGreater(version.stale, 1000, ahead)
                    time.sleep(0.04)
                self.assertIn("nobody has told yet that its version", follower.error)
                direct.store.keep(clock.now())
                self.assertTrue(until(lambda: version.stale < 3))
                self.assertIsNone(follower.error)

    def test_who_was_away_at_a_setback(self):
        """What was told while nobody looked isn't newer than the last look, and a bit."""
        direct, follower = Direct(self.redis), self.follow()
        direct.show(np.eye(300, 400) > 0)
        version = follower.wait(timeout=PATIENCE)
        direct.store.keep(clock.now())
        self.assertTrue(until(lambda: version.stale < 1))
        asked = time.clock_gettime
        slept = lambda number: asked(number) + 900 * (number == time.CLOCK_BOOTTIME)
        with mock.patch.object(time, "clock_gettime", slept):
            self.redis.client.set(KEYS.seen, int(1e6 * time.time()))
            for _ in range(60):
                self.assertGreater(version.stale, 890)
                time.sleep(0.04)
            direct.store._clock = None
            direct.store.keep(clock.now())
            self.assertTrue(until(lambda: version.stale < 3))

    def test_a_publish_age_that_isnt_yet(self):
        """The age of a version that was published at no time that Redis' clock knows."""
        direct = Direct(self.redis)
        record = direct.show(np.eye(300, 400) > 0)
        later = dataclasses.replace(record, published=record.published + 10**9)
        self.redis.client.hset(KEYS.versions, record.order, later.written())
        version = self.follow().wait(timeout=PATIENCE)
        self.assertEqual(version.age, float("inf"))


class Leases(Publishes):
    """A lease lasts for an hour more than it was taken for, by a clock that was set back."""

    def setUp(self):
        super().setUp()
        self.server = self.serve()
        self.painter, self.follower = self.paint(self.server), self.follow()

    def left(self):
        """Seconds until the lease ends."""
        return self.redis.client.pttl(KEYS.lease) / 1000

    def set_back(self):
        self.redis.client.pexpire(KEYS.lease, 1000 * HOUR)

    def test_of_a_dead_publisher(self):
        """The name is free after ten seconds."""
        first = self.publish(self.server.port)
        before = self.has(self.follower, self.painter, 0)
        first.end(signal.SIGKILL)
        self.set_back()
        begun = time.monotonic()
        second = self.publish(self.server.port)
        self.assertTrue(until(lambda: self.left() <= 10))
        version = self.has(self.follower, self.painter, self.painter.publish())
        self.assertGreater(version.order, before.order)
        self.assertLess(time.monotonic() - begun, 20)
        self.assertTrue(second.says("the lease has ended"))

    def test_of_a_live_publisher(self):
        """It renews its lease, and a second one is told so."""
        first = self.publish(self.server.port)
        self.has(self.follower, self.painter, 0)
        self.set_back()
        second = self.publish(self.server.port)
        self.assertEqual(second.process.wait(PATIENCE), 1)
        self.assertTrue(second.says("another publisher of 'yard' is live"))
        self.assertTrue(until(lambda: self.left() <= 10))
        self.has(self.follower, self.painter, self.painter.publish())
        self.assertEqual((first.end(), first.said), (0, []))


if __name__ == "__main__":
    unittest.main()
