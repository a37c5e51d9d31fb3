#!/usr/bin/env python3
"""Tests of what is stored of a version, and of how followers put versions together."""
import hashlib
import random
import time
import unittest
import zlib

from testing import clearmap, np

from clearmap.errors import BadVersion
from clearmap.followed import missing, put_together, stock_of
from clearmap.records import (
    HASH, Keys, Record, compressed_tiles, order_of, read_record, read_tile, tiles_of,
)  # fmt: skip

SIZES = ((1, 1), (63, 2), (64, 64), (65, 191), (256, 192), (257, 193), (300, 400), (1000, 33))


def recorded(grid, order=5, edge="open"):
    """A record of a grid, and what is stored of its tiles."""
    area = clearmap.Map(grid, edge)
    hashes, values = compressed_tiles(area)
    number = min(order - 1, 99)
    record = Record(order, "0123456789abcdef", number, 17, area.size, edge, tuple(hashes))
    return record, values


def grid_of(size, seed, share=0.2):
    width, height = size
    return np.random.default_rng(seed).random((height, width)) < share


class Records(unittest.TestCase):
    def test_read_as_written(self):
        for seed, size in enumerate(SIZES):
            for edge in ("open", "wall"):
                record, _ = recorded(grid_of(size, seed), 2**53 - 1, edge)
                written = record.written()
                self.assertEqual(read_record(written), record)
                self.assertEqual(record.hash, hashlib.sha256(written[:-HASH]).hexdigest())

    def test_any_byte_that_is_changed(self):
        written = recorded(grid_of((300, 400), 1))[0].written()
        for at in range(len(written)):
            for mask in (1, 128):
                changed = bytearray(written)
                changed[at] ^= mask
                with self.assertRaises(BadVersion):
                    read_record(bytes(changed))
        for end in range(len(written)):
            with self.assertRaises(BadVersion):
                read_record(written[:end])
        for other in (None, b"", "text", written + b"\n", written * 2, b"x" * 9999):
            with self.assertRaises(BadVersion):
                read_record(other)

    def test_a_size_that_no_map_has(self):
        """The hash is right, and so it is the size that is refused."""
        head = b"clearmap-version 1 5 0123456789abcdef 4 17 %d %d open\n"
        for width, height in ((0, 5), (5, 0), (4097, 5), (9999, 9999), (300, 400)):
            data = head % (width, height) + bytes(HASH)
            with self.assertRaises(BadVersion):
                read_record(data + hashlib.sha256(data).digest())

    def test_orders(self):
        self.assertEqual([order_of(word, "it") for word in (None, b"0", b"0017")], [0, 0, 17])
        for word in (b"", b"-1", b"1.5", b"x", "5", 5, b"9" * 16, b"1" * 17, b"5\n"):
            with self.assertRaisesRegex(clearmap.ClearmapError, "^the key it holds something"):
                order_of(word, "it")

    def test_names(self):
        keys = Keys("a.b-C_9")
        self.assertEqual(keys.newest, "clearmap:{a.b-C_9}:newest")
        for name in ("", "a b", "a:b", "{a}", "a*", "x" * 65, "ä", "a\n"):
            with self.assertRaises(ValueError):
                Keys(name)


class Tiles(unittest.TestCase):
    def test_tiles_are_the_map(self):
        for width, height in (*SIZES, (4096, 4096), (4095, 1), (1, 4096)):
            seen = np.zeros((height, (width + 63) // 64), int)
            for tile in tiles_of((width, height)):
                part = seen[tile.y0 : tile.y1, tile.first : tile.end]
                part += 1
                self.assertEqual(8 * part.size, tile.length)
            self.assertTrue((seen == 1).all())

    def test_bytes_of_a_tile(self):
        """A tile's rows are words of 64 columns, each with its least byte first."""
        grid = grid_of((300, 400), 3)
        record, values = recorded(grid)
        for key, tile in zip(record.tiles, tiles_of(record.size)):
            cells = read_tile(values[key], key, tile)
            bits = np.unpackbits(np.frombuffer(cells, np.uint8), bitorder="little")
            rows = bits.reshape(tile.y1 - tile.y0, -1)
            part = grid[tile.y0 : tile.y1, 64 * tile.first : 64 * tile.end]
            self.assertTrue((rows[:, : part.shape[1]] == part).all())
            self.assertFalse(rows[:, part.shape[1] :].any())

    def test_wrong_tiles(self):
        record, values = recorded(grid_of((300, 400), 3))
        key, tile = record.tiles[0], tiles_of(record.size)[0]
        good = values[key]
        cells = zlib.decompress(good)
        other = zlib.compress(bytes([cells[0] ^ 1]) + cells[1:])
        long, short = zlib.compress(cells + b"\0"), zlib.compress(cells[:-1])
        bomb = zlib.compress(bytes(1 << 24))
        for value in (None, b"", good[:-1], good + b"x", good[1:], other, long, short, bomb, "x"):
            with self.assertRaises(BadVersion):
                read_tile(value, key, tile)


class Together(unittest.TestCase):
    """Versions after one another are put together from tiles of the one before and fetched ones."""

    def follow(self, grids):
        """Follows these grids, and compares each version; how many tiles were fetched."""
        version, fetched = None, 0
        for order, grid in enumerate(grids, 1):
            record, values = recorded(grid, order, "wall" if order % 2 else "open")
            lacking = missing(record, stock_of(version))
            tiles = {key: read_tile(values[key], key, tile) for key, tile in lacking.items()}
            version = put_together(record, version, tiles, time.monotonic())
            fetched += len(tiles)
            self.assertTrue((version.map.grid() == grid).all())
            self.assertEqual((version.number, version.hash), (order - 1, record.hash))
            self.ask(version.map, clearmap.Map(grid, record.edge), order)
        return fetched

    def ask(self, area, like, seed):
        """Two maps answer alike."""
        source = random.Random(seed)
        width, height = like.size
        self.assertEqual((area.size, area.edge), (like.size, like.edge))
        for _ in range(20):
            metric = source.choice(("euclid2", "city", "chess"))
            cell = source.randrange(width), source.randrange(height)
            self.assertEqual(area.at(*cell, metric), like.at(*cell, metric))
        self.assertTrue((area.distances() == like.distances()).all())

    def test_random_changes(self):
        source = random.Random(5)
        for seed, size in enumerate(SIZES):
            grids = [grid_of(size, seed, 0.02)]
            for _ in range(12):
                grid = grids[-1].copy()
                x, y = source.randrange(size[0]), source.randrange(size[1])
                grid[y : y + 8, x : x + 8] ^= True
                grids.append(grid)
            fetched = self.follow(grids)
            self.assertLessEqual(fetched, len(tiles_of(size)) + 12 * 4)

    def test_other_sizes_and_blank_maps(self):
        """Tiles that are alike in maps of other sizes are found by their hashes."""
        sizes = [*SIZES, *reversed(SIZES)]
        self.follow([grid_of(size, seed) for seed, size in enumerate(sizes)])
        self.follow([np.zeros((height, width), bool) for width, height in sizes])
        self.assertEqual(self.follow([np.zeros((400, 512), bool)] * 5), 2)

    def test_cells_beyond_the_right_side(self):
        grid = np.ones((5, 65), bool)
        record, _ = recorded(np.ones((5, 128), bool))
        wide = Record(9, record.run, 1, 1, (65, 5), "open", record.tiles)
        _, values = recorded(np.ones((5, 128), bool))
        tiles = {key: read_tile(values[key], key, tiles_of((65, 5))[0]) for key in wide.tiles}
        with self.assertRaisesRegex(BadVersion, "beyond the map's right side"):
            put_together(wide, None, tiles, 0.0)
        self.assertNotEqual(recorded(grid)[0].tiles, record.tiles)

    def test_a_tile_of_another_length(self):
        """A record that names a tile of another length in the version before isn't taken."""
        record, values = recorded(np.zeros((5, 65), bool))
        cells = {key: zlib.decompress(value) for key, value in values.items()}
        version = put_together(record, None, cells, 0.0)
        other = Record(9, record.run, 1, 1, (65, 6), "open", record.tiles)
        with self.assertRaisesRegex(BadVersion, "isn't of 96 bytes"):
            put_together(other, version, {}, 0.0)

    def test_nobody_changes_a_version(self):
        grid = grid_of((100, 70), 1)
        record, values = recorded(grid)
        cells = {key: zlib.decompress(value) for key, value in values.items()}
        area = put_together(record, None, cells, 0.0).map
        for change in (area.paint, area.clear):
            with self.assertRaisesRegex(TypeError, "version.map.copy()"):
                change(0, 0, 5, 5)
        other = area.copy()
        other.paint(0, 0, 100, 70)
        self.assertTrue((area.grid() == grid).all() and other.grid().all())


if __name__ == "__main__":
    unittest.main()
