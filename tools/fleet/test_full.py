#!/usr/bin/env python3
"""Tests of clearmap-publish and followers over a Redis that takes no writes, or holds something
else under the name."""
import pathlib
import time
import unittest

from test_publish import Publishes
from testing import Keys, Publishing, Redis, clearmap, room, until

KEYS = Keys("yard")


class Full(Publishes):
    """Redis takes no writes: its memory or its disk is full, or it is a replica now."""

    def hold(self, refuse, allow, said):
        server = self.serve()
        painter, follower = self.paint(server), self.follow()
        publisher = self.publish(server.port)
        before = self.has(follower, painter, painter.publish())
        refuse()
        for _ in range(3):
            number = painter.publish()
        self.assertTrue(publisher.says(said))
        self.assertTrue(until(lambda: follower.stale > 2.5))
        self.assertIs(follower.version, before)
        self.redis.stored("yard")
        allow()
        self.has(follower, painter, number)
        self.assertTrue(publisher.says("Redis takes versions again"))
        self.assertTrue(until(lambda: not self.redis.strays("yard")))
        self.assertEqual(len(publisher.said), 2, publisher.said)

    def test_out_of_memory(self):
        config = self.redis.client.config_set
        config("maxmemory-policy", "noeviction")
        said = "Redis: OOM command not allowed"
        self.hold(lambda: config("maxmemory", 1), lambda: config("maxmemory", 0), said)

    def test_a_disk_that_is_full(self):
        """Redis can't write its snapshot, and says MISCONF to whoever writes."""
        folder = pathlib.Path(self.redis.folder.name)
        client = self.redis.client

        def refuse():
            client.config_set("save", "1 1")
            (folder / "dump.rdb").unlink(missing_ok=True)
            (folder / "dump.rdb").mkdir()
            client.set("other", 1)
            failed = lambda: client.info("persistence")["rdb_last_bgsave_status"] == "err"
            self.assertTrue(until(lambda: self.saved(client) and failed()))

        def allow():
            (folder / "dump.rdb").rmdir()
            self.assertTrue(until(lambda: self.saved(client)))

        self.hold(refuse, allow, "MISCONF")

    def saved(self, client):
        """Tells Redis to write its snapshot, and whether it is at rest then."""
        if not client.info("persistence")["rdb_bgsave_in_progress"]:
            client.execute_command("BGSAVE", "SCHEDULE")
        return not client.info("persistence")["rdb_bgsave_in_progress"]

    def test_a_replica(self):
        """The Redis that is written to becomes a replica of one that holds the same."""
        other = self.enterContext(Redis("--replicaof", "127.0.0.1", str(self.redis.port)))
        synced = lambda: other.client.info("replication")["master_link_status"] == "up"
        self.assertTrue(until(synced))
        client = self.redis.client
        change = lambda: (other.client.replicaof("NO", "ONE"),
                          client.replicaof("127.0.0.1", other.port))  # fmt: skip
        self.hold(change, lambda: client.replicaof("NO", "ONE"), "read only replica")

    def test_followers_of_a_replica(self):
        other = self.enterContext(Redis("--replicaof", "127.0.0.1", str(self.redis.port)))
        server = self.serve()
        painter = self.paint(server)
        self.publish(server.port, "--interval", "0.01")
        follower = self.enterContext(clearmap.Follower(other.url, "yard"))
        for _ in range(5):
            self.has(follower, painter, painter.publish())


class Log(Publishes):
    """Its own log and output are on a full disk."""

    def test_a_loss(self):
        """That of the server and of Redis can't be told, and it goes on after both."""
        server = self.serve(room(seed=1))
        follower = self.follow()
        with open("/dev/full", "wb") as full:
            publisher = self.enterContext(
                Publishing(server.port, self.redis.url, out=full, log=full)
            )
        painter = self.paint(server)
        before = self.has(follower, painter, painter.publish())
        server.end()
        again = self.serve(room(seed=2), server.port)
        painter = self.paint(again)
        self.assertNotEqual(self.has(follower, painter, 0).run, before.run)
        self.redis.kill()
        self.assertTrue(until(lambda: follower.error is not None))
        number = painter.publish()
        time.sleep(1.5)
        self.redis.start()
        self.has(follower, painter, number)
        self.assertEqual(publisher.end(), 0)


class Others(Publishes):
    """Something else stands under the name."""

    def test_other_types(self):
        """One line names the key; what stands there is left, and once it is gone all goes on."""
        client = self.redis.client
        server = self.serve()
        painter = self.paint(server)
        for key in (KEYS.newest, KEYS.versions, KEYS.tiles, KEYS.lease, KEYS.seen, KEYS.publisher):
            client.rpush(key, "something else")
            publisher = self.publish(server.port)
            self.assertTrue(publisher.says("Redis: "), key)
            self.assertRegex(publisher.said[0], "WRONGTYPE|something else", key)
            self.assertEqual(client.lrange(key, 0, -1), [b"something else"], key)
            with clearmap.Follower(self.redis.url, "yard") as follower:
                with self.assertRaises(clearmap.NoVersion):
                    follower.wait(timeout=0.3)
                client.delete(key)
                self.has(follower, painter, painter.publish())
            self.assertEqual(publisher.end(), 0)
            client.flushall()

    def test_other_words(self):
        client = self.redis.client
        server = self.serve()
        writes = ((client.set, KEYS.newest, "words"), (client.set, KEYS.newest, "9" * 16),
                  (client.hset, KEYS.versions, "words", "x"), (client.set, KEYS.lease, "words"),
                  (client.set, KEYS.lease, ""))
        for write, *words in writes:
            write(*words)
            publisher = self.publish(server.port)
            self.assertTrue(publisher.says(f"the key {words[0]} holds something else"), words)
            client.flushall()
            self.assertTrue(publisher.says("Redis takes versions again"))
            self.assertEqual(publisher.end(), 0)
            client.flushall()


if __name__ == "__main__":
    unittest.main()
