#!/usr/bin/env python3
"""Tests of how old a follower says that its version is, and what it says of who isn't there."""
import signal
import threading
import time
import unittest
from unittest import mock

from test_publish import Publishes
from testing import PATIENCE, Direct, Keys, Redis, clearmap, clock, np, until

KEYS = Keys("yard")
SLACK = 0.3  # seconds by which an age may be too small


class Sampling:
    """Notes what a follower tells of its age, until it is ended. `news` are the times at which each
    version was published for certain, by its number."""

    def __init__(self, follower, news):
        self.follower, self.news, self.samples = follower, news, []
        self._ended = threading.Event()
        self._thread = threading.Thread(target=self._run, daemon=True)
        self._thread.start()

    def _run(self):
        while not self._ended.is_set():
            version = self.follower._version
            if version is not None:
                self.samples.append((version.stale, time.monotonic(), version.number))
            self._ended.wait(0.005)

    def worst(self):
        """By how much an age was too small at most, in seconds."""
        self._ended.set()
        self._thread.join()
        return max(now - self.news[number + 1] - stale for stale, now, number in self.samples
                   if number + 1 in self.news)  # fmt: skip


class Ages(Publishes):
    def setUp(self):
        super().setUp()
        self.server, self.news = self.serve(), {}
        self.painter = self.paint(self.server)

    def paint_one(self):
        """Publishes a version, and notes when that was done."""
        number = self.painter.publish()
        self.news[number] = time.monotonic()
        return number

    def test_a_wait_for_a_lease(self):
        """The next publisher waits for a dead one's lease, and versions come meanwhile."""
        follower = self.follow()
        first = self.publish(self.server.port)
        self.has(follower, self.painter, self.paint_one())
        sampling = Sampling(follower, self.news)
        first.end(signal.SIGKILL)
        self.paint_one()
        self.publish(self.server.port)
        time.sleep(1.5)
        number = self.paint_one()
        self.has(follower, self.painter, number)
        self.assertLess(sampling.worst(), SLACK)
        self.assertTrue(until(lambda: follower.stale < 1))

    def test_a_sign_that_redis_runs_late(self):
        """What was looked at before Redis stood still is as old as the look."""
        direct = Direct(self.redis)
        direct.show(np.eye(300, 400) > 0)
        follower = self.follow()
        follower.wait(timeout=PATIENCE)
        looked = clock.now()
        self.redis.process.send_signal(signal.SIGSTOP)
        threading.Timer(3, self.redis.process.send_signal, (signal.SIGCONT,)).start()
        direct.store.keep(looked)
        for _ in range(200):
            self.assertGreater(follower.stale, clock.now() - looked - SLACK)
            time.sleep(0.01)
        self.assertLess(follower.stale, clock.now() - looked + SLACK)

    def test_a_copy_that_took_long(self):
        """Its version is as old as the look before it."""
        direct, follower = Direct(self.redis), self.follow()
        direct.show(np.eye(300, 400) > 0)
        before = follower.wait(timeout=PATIENCE)
        direct.show(np.eye(300, 400) < 1, ago=5)
        version = follower.wait(before, timeout=PATIENCE)
        self.assertTrue(4.9 < version.stale < 7, version.stale)
        self.assertTrue(4.9 < version.age < 7, version.age)

    def test_who_starts_while_all_is_well(self):
        """It learns within some two seconds that the version is the newest."""
        self.publish(self.server.port)
        self.has(self.follow(), self.painter, 0)
        for _ in range(3):
            with clearmap.Follower(self.redis.url, "yard") as follower:
                follower.wait(timeout=PATIENCE)
                self.assertTrue(until(lambda: follower.error is None, 5))
                for _ in range(60):
                    self.assertLess(follower.stale, 3)
                    time.sleep(0.04)

    def test_each_version_has_its_own(self):
        """A version that was replaced goes on ageing, whatever the follower has by then."""
        follower = self.follow()
        self.publish(self.server.port)
        old = self.has(follower, self.painter, self.paint_one())
        time.sleep(1.2)
        new = self.has(follower, self.painter, self.paint_one())
        time.sleep(3)
        self.assertGreater(old.stale, 2.9)
        self.assertLess(new.stale, 2.6)
        self.assertAlmostEqual(follower.stale, new.stale, delta=0.1)

    def test_what_was_told_of_another_version(self):
        """A version that comes between two of a follower's questions doesn't make the one before
        it young."""
        direct = Direct(self.redis)
        old = direct.show(np.eye(300, 400) > 0, ago=60)
        follower = self.follow()
        follower.wait(timeout=PATIENCE)
        fetcher = follower._fetcher
        follower.close()
        pipeline = _Late(self.redis.client, lambda: direct.show(np.eye(300, 400) < 1))
        with mock.patch.object(fetcher, "_client", pipeline):
            state = fetcher.state()
        self.assertTrue(state.newest > old.order or state.seen < clock.now() - 50, state)


class _Late:
    """A client whose first pipeline is asked one question after another, with something done after
    the first one."""

    def __init__(self, client, do):
        self._client, self._do = client, do

    def pipeline(self, **_):
        return _Steps(self._client, self)


class _Steps:
    def __init__(self, client, late):
        self._client, self._late, self._asked = client, late, []

    def get(self, key):
        self._asked.append(lambda: self._client.get(key))
        return self

    def time(self):
        self._asked.append(self._client.time)
        return self

    def execute(self):
        answers = []
        for ask in self._asked:
            answers.append(ask())
            do, self._late._do = self._late._do, lambda: None
            do()
        return answers


class Sleeping(unittest.TestCase):
    """A robot that slept, played by a clock that jumps."""

    @unittest.skipUnless(hasattr(time, "CLOCK_BOOTTIME"), "this system counts no sleep")
    def test_a_robot_that_slept(self):
        with Redis() as redis:
            Direct(redis).show(np.eye(300, 400) > 0)
            with clearmap.Follower(redis.url, "yard") as follower:
                version = follower.wait(timeout=PATIENCE)
                redis.kill()
                asked = time.clock_gettime
                slept = lambda number: asked(number) + 3600 * (number == time.CLOCK_BOOTTIME)
                with mock.patch.object(time, "clock_gettime", slept):
                    self.assertGreater(follower.stale, 3600)
                    self.assertGreater(version.age, 3600)
                    self.assertIsNotNone(follower.error)

    def test_where_no_sleep_is_counted(self):
        with mock.patch.object(time, "clock_gettime", side_effect=OSError):
            self.assertLess(abs(clock.now() - time.monotonic()), 1)


class Lost(Publishes):
    """`error` says so while nobody knows what the server's newest version is."""

    LOST = "^'yard' at 127.* nobody tells that its version is the newest: the server or clearmap-"

    def lose(self, lose, again):
        server = self.serve()
        self.painter, follower = self.paint(server), self.follow()
        publisher = self.publish(server.port)
        self.has(follower, self.painter, 0)
        self.assertTrue(until(lambda: follower.stale < 1))
        self.assertIsNone(follower.error)
        lose(server, publisher)
        self.assertTrue(until(lambda: follower.stale > 3.1))
        self.assertRegex(follower.error, self.LOST)
        again(server, publisher)
        self.assertTrue(until(lambda: follower.error is None and follower.stale < 3))

    def test_the_publisher(self):
        self.lose(lambda _, publisher: publisher.end(signal.SIGKILL),
                  lambda server, _: self.publish(server.port))  # fmt: skip

    def test_the_server(self):
        self.lose(lambda server, _: server.process.send_signal(signal.SIGSTOP),
                  lambda server, _: server.process.send_signal(signal.SIGCONT))  # fmt: skip

    def test_the_publisher_stands_still(self):
        self.lose(lambda _, publisher: publisher.process.send_signal(signal.SIGSTOP),
                  lambda _, publisher: publisher.process.send_signal(signal.SIGCONT))  # fmt: skip


if __name__ == "__main__":
    unittest.main()
