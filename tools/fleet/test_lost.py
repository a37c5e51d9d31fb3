#!/usr/bin/env python3
"""Tests of clearmap-publish and followers over a Redis that is killed, emptied or set back."""
import unittest

from test_publish import Publishes
from testing import Keys, Redis, clearmap, until

KEYS = Keys("yard")


class Killed(Publishes):
    """Redis is killed while versions are published, and started again."""

    def lose(self, flags, rounds=4):
        self.flags = flags
        self.redis = self.enterContext(Redis(*flags))
        server = self.serve()
        painter, follower = self.paint(server), self.follow()
        publisher = self.publish(server.port, "--interval", "0.01")
        orders = [self.has(follower, painter, painter.publish()).order]
        for _ in range(rounds):
            self.redis.kill()
            before = follower.version
            number = painter.publish()
            self.assertTrue(until(lambda: follower.error is not None))
            self.assertIs(follower.version, before)
            self.assertRegex(follower.error, "^'yard' at 127.0.0.1:")
            self.assertTrue(publisher.says("Redis: "))
            self.redis.start()
            version = self.has(follower, painter, number)
            self.assertTrue(until(lambda: follower.error is None, 5), follower.error)
            orders.append(version.order)
            orders.append(self.has(follower, painter, painter.publish()).order)
            self.redis.stored("yard")
            self.assertTrue(until(lambda: not self.redis.strays("yard")))
        self.assertEqual(orders, sorted(set(orders)))
        self.assertTrue(publisher.says("Redis takes versions again"))
        self.assertLessEqual(len(publisher.said), 2 * rounds, publisher.said)

    def test_without_persistence(self):
        self.lose(())

    def test_with_an_append_only_file(self):
        self.lose(("--appendonly", "yes", "--appendfsync", "everysec"), 2)

    def test_back_to_a_snapshot(self):
        """Redis comes back as it was some versions ago: nobody takes what is older."""
        server = self.serve()
        painter, follower = self.paint(server), self.follow()
        publisher = self.publish(server.port)
        self.has(follower, painter, painter.publish())
        self.redis.client.save()
        for _ in range(3):
            last = self.has(follower, painter, painter.publish())
        publisher.end()
        self.redis.kill()
        self.redis.start()
        self.assertTrue(until(lambda: "an older version" in (follower.error or "")))
        self.assertIs(follower.version, last)
        self.assertLess(max(self.redis.stored("yard")), last.order)
        late = self.follow()  # which knows no newer one
        self.assertEqual(late.wait(timeout=20).number, 1)
        self.publish(server.port)
        version = self.has(late, painter, painter.publish())
        self.assertEqual(self.has(follower, painter, version.number).order, version.order)
        self.assertGreater(version.order, last.order)

    def test_back_to_a_snapshot_while_publishing(self):
        """The publisher sees that Redis has lost versions, though nothing new is published."""
        server = self.serve()
        painter, follower = self.paint(server), self.follow()
        self.publish(server.port)
        self.has(follower, painter, painter.publish())
        self.redis.client.save()
        last = self.has(follower, painter, painter.publish())
        self.redis.kill()
        self.redis.start()
        self.assertTrue(until(lambda: follower.version.order > last.order))
        self.assertEqual(self.has(self.follow(), painter, 2).order, follower.version.order)

    def test_emptied(self):
        """All keys, some of them or some tiles vanish: they are written again."""
        server = self.serve()
        painter, follower = self.paint(server), self.follow()
        self.publish(server.port)
        client = self.redis.client
        number = painter.publish()
        self.has(follower, painter, number)
        for lose in (client.flushall, lambda: client.delete(KEYS.tiles),
                     lambda: client.delete(KEYS.versions), lambda: client.delete(KEYS.newest),
                     lambda: client.delete(KEYS.lease, KEYS.seen),
                     lambda: client.hdel(KEYS.tiles, *client.hkeys(KEYS.tiles)[:1])):  # fmt: skip
            lose()
            with clearmap.Follower(self.redis.url, "yard") as fresh:
                self.has(fresh, painter, number)
                self.assertTrue(until(lambda: fresh.error is None and fresh.stale < 1))
            self.assertTrue((follower.version.map.grid() == painter.grid(number)).all())


if __name__ == "__main__":
    unittest.main()
