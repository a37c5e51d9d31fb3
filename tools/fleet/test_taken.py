#!/usr/bin/env python3
"""Tests of a follower: which versions it takes, and which it refuses."""
import unittest
import zlib

from test_follower import Follows, grid_of
from testing import PATIENCE, Direct, Keys, Redis, clearmap, np, until

KEYS = Keys("yard")


class Damaged(Follows):
    """What is stored is changed by somebody: a version isn't taken, and the old one stays."""

    def refused(self, damage, said):
        """A version whose keys are damaged before the follower is told of it, and one after it."""
        first = grid_of(1)
        self.direct.show(first)
        follower = self.follow_known()
        before = follower.version
        self.hidden(grid_of(2), damage)
        self.assertTrue(until(lambda: follower.error is not None))
        self.assertRegex(follower.error, f"^'yard' at 127.* the newest version isn't taken: {said}")
        self.assertIs(follower.version, before)
        self.assertTrue((before.map.grid() == first).all())
        self.assertTrue(until(lambda: follower.stale > 1.5))
        late = self.follow()
        with self.assertRaisesRegex(clearmap.NoVersion, said):
            late.wait(timeout=1)
        self.direct.store.doubt()
        third = grid_of(3)
        record = self.direct.show(third)
        for each in (follower, late):
            each.wait(newer_than=before, timeout=PATIENCE)
            self.has(each, record, third)
            self.assertIsNone(each.error)

    def hidden(self, grid, damage):
        """Publishes a version and damages it at once, in one transaction: no follower sees it
        whole. The publisher runs against a Redis of its own, whose keys are copied over."""
        with Redis() as other:
            direct = Direct(other)
            direct.store._last = int(self.redis.client.get(KEYS.newest))
            record = direct.show(grid)
            tiles, versions = (other.client.hgetall(key) for key in (KEYS.tiles, KEYS.versions))
        asked = self.redis.client.pipeline(transaction=True)
        asked.hset(KEYS.tiles, mapping=tiles).hset(KEYS.versions, mapping=versions)
        asked.set(KEYS.newest, record.order)
        damage(asked, record, tiles)
        asked.publish(KEYS.news, record.order)
        asked.execute()
        return record

    def test_a_tile_of_another_place(self):
        def damage(asked, record, tiles):
            asked.hset(KEYS.tiles, record.tiles[0], tiles[record.tiles[2]])

        self.refused(damage, "its tile .* has another hash|its tile .* isn't of")

    def test_a_tile_of_other_cells(self):
        def damage(asked, record, tiles):
            cells = bytearray(zlib.decompress(tiles[record.tiles[1]]))
            cells[7] ^= 4
            asked.hset(KEYS.tiles, record.tiles[1], zlib.compress(bytes(cells)))

        self.refused(damage, "its tile .* has another hash")

    def test_a_tile_that_is_cut(self):
        def damage(asked, record, tiles):
            asked.hset(KEYS.tiles, record.tiles[1], tiles[record.tiles[1]][:-5])

        self.refused(damage, "its tile .* isn't of")

    def test_a_tile_that_is_none(self):
        def damage(asked, record, tiles):
            asked.hset(KEYS.tiles, record.tiles[1], "words")

        self.refused(damage, "its tile .* can't be unpacked")

    def test_a_tile_that_is_missing(self):
        def damage(asked, record, tiles):
            asked.hdel(KEYS.tiles, record.tiles[3])

        self.refused(damage, "its tile .* isn't there")

    def test_a_record_that_is_missing(self):
        def damage(asked, record, tiles):
            asked.hdel(KEYS.versions, record.order)

        self.refused(damage, "its record isn't there")

    def test_a_record_that_is_changed(self):
        def damage(asked, record, tiles):
            written = record.written()
            asked.hset(KEYS.versions, record.order, written.replace(b" 300 400 ", b" 299 400 "))

        self.refused(damage, "its record has another hash")

    def test_a_record_of_another_version(self):
        def damage(asked, record, tiles):
            asked.hset(KEYS.versions, record.order + 5, record.written())
            asked.set(KEYS.newest, record.order + 5)

        self.refused(damage, "its record is that of version")


class Taken(Follows):
    def test_nothing_older(self):
        """The pointer is set back to a version that is there and whole."""
        first, second = grid_of(1), grid_of(2)
        old = self.direct.show(first)
        new = self.direct.show(second)
        follower = self.follow_known()
        self.assertEqual(follower.version.hash, new.hash)
        self.redis.client.set(KEYS.newest, old.order)
        self.redis.client.publish(KEYS.news, old.order)
        self.assertTrue(until(lambda: follower.error is not None))
        self.assertRegex(follower.error, "Redis has an older version than the one here$")
        self.assertEqual(follower.version.hash, new.hash)
        self.redis.client.delete(KEYS.newest)
        self.assertTrue(until(lambda: (follower.error or "").endswith("Redis has no version")))
        third = self.direct.show(grid_of(3))
        self.has(follower, third, grid_of(3))

    def test_what_is_fetched(self):
        """The bytes that Redis sends for a change of one tile."""
        grid = np.zeros((2000, 3000), bool)
        grid[::7, ::5] = True
        self.direct.show(grid)
        follower = self.follow()
        version = follower.wait(timeout=PATIENCE)
        sent = lambda: self.redis.client.info("stats")["total_net_output_bytes"]
        for _ in range(5):
            self.direct.show(grid := grid.copy())
        grid[100:108, 100:108] ^= True
        before, record = sent(), self.direct.show(grid)
        self.has(follower, record, grid)
        self.assertNotEqual(follower.version.hash, version.hash)
        self.assertLess(sent() - before, 60_000)  # with what the publisher asks

    def test_tiles_that_a_lost_try_has_fetched(self):
        """They are kept: the next try asks for the rest alone."""
        record = self.direct.show(grid_of(1))
        values = self.redis.client.hgetall(KEYS.tiles)
        self.redis.client.hdel(KEYS.tiles, record.tiles[-1])
        follower = self.follow()
        self.assertTrue(until(lambda: "isn't there" in (follower.error or "")))
        self.redis.client.hdel(KEYS.tiles, *record.tiles[:-1])
        self.redis.client.hset(KEYS.tiles, record.tiles[-1], values[record.tiles[-1]])
        self.assertEqual(follower.wait(timeout=PATIENCE).hash, record.hash)

    def test_news_that_are_lost(self):
        """Who is told nothing looks now and then."""
        self.direct.show(grid_of(1))
        follower = self.follow()
        before = follower.wait(timeout=PATIENCE)
        self.direct.store._redis = _Mute(self.redis.client)
        record = self.direct.show(grid_of(2))
        self.assertEqual(follower.wait(before, timeout=5).hash, record.hash)

    def test_a_size_that_is_wanted(self):
        self.direct.show(grid_of(1))
        wrong, right = self.follow(size=(300, 399)), self.follow(size=(300, 400))
        self.assertEqual(right.wait(timeout=PATIENCE).map.size, (300, 400))
        with self.assertRaisesRegex(clearmap.NoVersion, "another map: .* 300 by 400 cells"):
            wrong.wait(timeout=0.5)
        for size in ((0, 5), (5, 4097), (5.5, 5)):
            with self.assertRaises((ValueError, TypeError)):
                clearmap.Follower(self.redis.url, "yard", size=size)


class _Mute:
    """A client of Redis whose versions nobody is told of."""

    def __init__(self, client):
        self._client = client

    def __getattr__(self, name):
        return getattr(self._client, name)

    def eval(self, script, *words):
        return self._client.eval(script.replace("redis.call('PUBLISH', ARGV[5], ARGV[2])", ""),
                                 *words)  # fmt: skip


if __name__ == "__main__":
    unittest.main()
