#!/usr/bin/env python3
"""Tests of clearmap-publish: what it keeps and drops, and servers one after another."""
import signal
import subprocess
import sys
import unittest

from testing import (
    HERE, PATIENCE, Answering, Painter, Publishing, Redis, Served, blank, clearmap, free_port, np,
    room, until,
)  # fmt: skip


class Publishes(unittest.TestCase):
    """Each test has a Redis, and followers that end with it."""

    flags = ()

    def setUp(self):
        self.redis = self.enterContext(Redis(*self.flags))

    def follow(self, name="yard", **settings):
        return self.enterContext(clearmap.Follower(self.redis.url, name, **settings))

    def publish(self, port, *words, name="yard"):
        return self.enterContext(Publishing(port, self.redis.url, *words, name=name))

    def serve(self, image=None, port=0):
        return self.enterContext(Served(image or room(), port=port))

    def paint(self, server, seed=1):
        return self.enterContext(Painter(server.port, seed))

    def has(self, follower, painter, number):
        """The follower has this version soon, and its cells are those that were published."""

        def is_there():
            try:
                return follower.version.number == number
            except clearmap.NoVersion:
                return False

        self.assertTrue(until(is_there), f"no version {number}: {follower.error}")
        version = follower.version
        self.assertTrue((version.map.grid() == painter.grid(number)).all())
        return version


class Kept(Publishes):
    def test_versions_and_tiles(self):
        for keep in (1, 3):
            with self.subTest(keep=keep):
                self.keep(keep, f"yard{keep}")

    def keep(self, keep, name):
        server = self.serve()
        painter, follower = self.paint(server), self.follow(name)
        self.publish(server.port, "--keep", str(keep), "--interval", "0.01", name=name)
        before = None
        for _ in range(20):
            version = self.has(follower, painter, painter.publish())
            kept = self.redis.stored(name)
            self.assertLessEqual(len(kept), keep)
            self.assertEqual(kept[version.order].hash, version.hash)
            self.assertTrue(before is None or before.order < version.order)
            self.assertEqual(version.run, version.run if before is None else before.run)
            before = version
        self.assertTrue(until(lambda: not self.redis.strays(name)))

    def test_one_tile_of_a_large_map(self):
        """A small change writes the tiles that it touches, and no other."""
        server = self.serve(blank(1000, 1000))
        painter, follower = self.paint(server), self.follow()
        self.publish(server.port)
        self.has(follower, painter, 0)
        blanks = self.redis.tiles("yard")
        painter.client.paint(252, 188, 260, 196)  # the corner of four tiles
        painter.client.publish()
        self.has(follower, painter, painter.keep())
        self.assertEqual(len(self.redis.tiles("yard") - blanks), 4)

    def test_the_edge(self):
        for edge in ("open", "wall"):
            server = self.enterContext(Served(blank(70, 30), "--edge", edge))
            self.publish(server.port, name=edge)
            version = self.follow(edge).wait(timeout=PATIENCE)
            self.assertEqual(version.map.edge, edge)
            self.assertEqual(version.map.at(3, 4) is None, edge == "open")

    def test_a_border_of_obstacles(self):
        """No cell tells the edge of such a map, and no answer depends on it."""
        grid = np.ones((30, 70), bool)
        grid[3:20, 3:60] = False
        image = b"P4\n70 30\n" + np.packbits(grid, axis=1).tobytes()
        server = self.enterContext(Served(image, "--edge", "wall"))
        self.publish(server.port)
        version = self.follow().wait(timeout=PATIENCE)
        self.assertTrue((version.map.grid() == grid).all())

    def test_two_names(self):
        one, other = self.serve(room(seed=1)), self.serve(room(90, 50, seed=2))
        painters = [self.paint(server) for server in (one, other)]
        for name, server in (("one", one), ("other", other)):
            self.publish(server.port, name=name)
        followers = [self.follow(name) for name in ("one", "other")]
        for _ in range(5):
            for follower, painter in zip(followers, painters):
                self.has(follower, painter, painter.publish())
        self.assertEqual([follower.version.map.size for follower in followers],
                         [painter.client.size for painter in painters])  # fmt: skip


class Servers(Publishes):
    """Served maps one after another under one name."""

    def test_a_server_that_is_started_anew(self):
        """Its numbers begin at 0 again, and its versions are newer all the same."""
        server = self.serve(room(seed=1))
        painter, follower = self.paint(server), self.follow()
        publisher = self.publish(server.port)
        for _ in range(3):
            painter.publish()
        before = self.has(follower, painter, 3)
        server.end()
        self.assertTrue(publisher.says("the server ended the connection"))
        self.assertIs(follower.version, before)
        again = self.serve(room(seed=2), server.port)
        painter = self.paint(again)
        version = self.has(follower, painter, 0)
        self.assertGreater(version.order, before.order)
        self.assertNotEqual(version.run, before.run)
        self.assertTrue(publisher.says("there is a server again"))
        self.assertEqual(len(publisher.said), 2, publisher.said)

    def test_a_map_of_another_size(self):
        """It is taken by those who don't say what they expect, and refused by the others."""
        server = self.serve(room(seed=1))
        painter, follower = self.paint(server), self.follow()
        strict = self.follow(size=(300, 400))
        publisher = self.publish(server.port)
        before = self.has(strict, painter, 0)
        publisher.end()
        other = self.serve(room(90, 50, seed=2))
        self.publish(other.port, "--take-over")
        self.assertTrue(until(lambda: follower.version.map.size == (90, 50)))
        self.assertTrue(until(lambda: "isn't taken" in (strict.error or "")))
        self.assertRegex(strict.error, "isn't taken: another map: .* 90 by 50 cells, and 300 by")
        self.assertIs(strict.version, before)

    def test_a_size_that_is_expected(self):
        """A map of another size isn't published, and nothing of it is stored; the right one is."""
        server = self.serve(room(90, 50, seed=2))
        publisher = self.publish(server.port, "--size", "300x400")
        said = "another map: the server's has 90 by 50 cells, and 300 by 400 are expected"
        self.assertTrue(publisher.says(said))
        self.assertEqual((self.redis.stored("yard"), self.redis.tiles("yard")), ({}, set()))
        server.end()
        again = self.serve(room(seed=1), server.port)
        self.has(self.follow(size=(300, 400)), self.paint(again), 0)

    def test_no_server_at_first(self):
        port = free_port()
        publisher = self.publish(port)
        self.assertTrue(publisher.says(f"no server at 127.0.0.1:{port}"))
        server = self.serve(port=port)
        self.has(self.follow(), self.paint(server), 0)

    def test_through_a_gateway(self):
        """A gateway closes its clients where its server is lost: another server is another run."""
        server = self.serve(room(seed=1))
        words = [sys.executable, str(HERE.parent / "gateway/clearmap_gateway.py")]
        gateway = subprocess.Popen([*words, "--port", str(server.port), "--links", "2"],
                                   stdout=subprocess.PIPE, stderr=subprocess.DEVNULL)  # fmt: skip
        with gateway:
            self.addCleanup(gateway.kill)
            port = int(gateway.stdout.readline().split()[1])
            painter, follower = self.paint(server), self.follow()
            self.publish(port)
            before = self.has(follower, painter, painter.publish())
            server.end()
            again = self.serve(room(seed=2), server.port)
            painter = self.paint(again)
            self.assertNotEqual(self.has(follower, painter, 0).run, before.run)
            gateway.kill()

    def test_a_server_whose_workers_are_taken(self):
        server = self.enterContext(Served(room(), "--workers", "1"))
        with Painter(server.port) as painter:
            publisher = self.publish(server.port)
            self.assertTrue(publisher.says("no worker has answered within 10 s"))
        self.has(self.follow(), painter, 0)
        self.assertTrue(publisher.says("there is a server again"))

    def test_what_is_no_server(self):
        """What answers otherwise is reported in one line, and no version comes of it."""
        for replies in ([b"HTTP/1.1 400\r\n"], [b"OK 1\n", b"OK 5\nP1\n1\n", b"OK 1\n"],
                        [b"OK 0\n", b"OK 0\n"], [b"O" * 200]):  # fmt: skip
            with Answering(replies) as fake:
                publisher = self.publish(fake.port)
                self.assertTrue(until(lambda: publisher.said), replies)
                self.assertEqual(publisher.end(), 0)
                self.assertEqual(len(publisher.said), 1, publisher.said)
                self.assertEqual(self.redis.stored("yard"), {})

    def test_a_server_that_stands_still(self):
        """Its lease is kept meanwhile, and followers learn that nobody has seen the server."""
        server = self.serve()
        painter, follower = self.paint(server), self.follow()
        publisher = self.publish(server.port)
        before = self.has(follower, painter, 0)
        server.process.send_signal(signal.SIGSTOP)
        self.assertTrue(publisher.says("no reply within 10 s"))
        self.assertTrue(until(lambda: follower.stale > 4))
        self.assertIs(follower.version, before)
        server.process.send_signal(signal.SIGCONT)
        self.has(follower, painter, painter.publish())
        self.assertTrue(until(lambda: follower.stale < 3))


if __name__ == "__main__":
    unittest.main()
