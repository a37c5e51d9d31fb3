#!/usr/bin/env python3
"""Tests of machines of one host name, whose servers have one port: whose the name is, and which
versions a follower takes."""
import os
import pathlib
import socket
import subprocess
import sys
import tempfile
import time
import unittest
from unittest import mock

import places
from test_publish import Publishes
from testing import HERE, PATIENCE, Direct, Keys, clearmap, clock, np, store, until

KEYS = Keys("yard")
HOUR = 3600
GRIDS = [np.random.default_rng(seed).random((400, 300)) < 0.05 for seed in range(3)]


class Machines(Publishes):
    """The other hall's machine is played: what it wrote stands in Redis."""

    def setUp(self):
        super().setUp()
        self.server = self.serve()
        self.painter = self.paint(self.server)
        self.host = f"{socket.gethostname()}:{self.server.port}"
        self.other = f"{self.host} 0badcafe"

    def show_other(self, grid, place=None):
        """The other hall's machine publishes, and is lost."""
        record = Direct(self.redis, port=self.server.port).show(grid)
        self.redis.client.set(KEYS.publisher, place or self.other)
        self.redis.client.delete(KEYS.lease)
        return record

    def told(self):
        return self.redis.client.get(KEYS.publisher).decode()

    def test_after_the_others_loss(self):
        """Its name isn't taken over, whatever followers expect, until that is asked for."""
        self.show_other(GRIDS[0])
        host = socket.gethostname()
        followers = [self.follow(size=(300, 400), host=self.host),
                     self.follow(size=(300, 400), host=host), self.follow()]  # fmt: skip
        versions = [follower.wait(timeout=PATIENCE) for follower in followers]
        second = self.publish(self.server.port)
        self.assertEqual(second.process.wait(PATIENCE), 1)
        mine = places.here_of(self.server.port).place
        self.assertTrue(second.says(f"published last from {self.other}, and this is {mine}: take"))
        for follower, version in zip(followers, versions):
            self.assertIs(follower.version, version)
        self.publish(self.server.port, "--take-over")
        self.assertTrue(until(lambda: self.told() == mine + " moved"))
        self.has(followers[2], self.painter, 0)

    def test_an_emptied_redis(self):
        """Who has a version of one machine takes none of another one."""
        self.show_other(GRIDS[0])
        followers = [self.follow(host=self.host), self.follow(host=socket.gethostname()),
                     self.follow()]  # fmt: skip
        versions = [follower.wait(timeout=PATIENCE) for follower in followers]
        self.redis.client.flushall()
        self.publish(self.server.port)
        for follower, version in zip(followers, versions):
            self.assertTrue(until(lambda: "isn't taken" in (follower.error or "")))
            places_told = f"it is from {self.told()}, and that here from {self.other}$"
            self.assertRegex(follower.error, places_told)
            self.assertIs(follower.version, version)

    def test_a_twin(self):
        """The other hall's machine is of the same image: this one was up by its last sign."""
        here = places.here_of(self.server.port)
        self.show_other(GRIDS[0], here.place)
        self.redis.client.set(KEYS.boot, "0badcafe")
        follower = self.follow(size=(300, 400), host=self.host)
        version = follower.wait(timeout=PATIENCE)
        second = self.publish(self.server.port)
        self.assertEqual(second.process.wait(PATIENCE), 1)
        self.assertTrue(second.says(f"last from a twin of this machine, {here.place} too: give ea"))
        self.assertIs(follower.version, version)
        self.publish(self.server.port, "--take-over")
        self.has(follower, self.painter, 0)
        self.assertEqual(self.redis.client.get(KEYS.boot).decode(), here.boot)

    def test_a_machine_that_was_started_anew(self):
        """It is of another boot, and the last sign is from before that, or nobody knows when."""
        self.painter.publish()  # so that no number is one of the other's
        for ago in (clock.now() + 60, -HOUR):
            self.show_other(GRIDS[0], places.here_of(self.server.port).place)
            self.redis.client.set(KEYS.boot, "0badcafe")
            self.redis.client.set(KEYS.seen, int(1e6 * (time.time() - ago)))
            with self.publish(self.server.port) as publisher:
                self.has(self.follow(), self.painter, self.painter.publish())
                self.assertEqual((publisher.end(), publisher.said), (0, []))

    def test_a_container_that_was_started_anew(self):
        """It was up no longer than its first process, whatever its host was."""
        here = places.here_of(self.server.port)._replace(boot="0badcafe")
        before = clock.now()
        self.show_other(GRIDS[0], here.place)
        old, new = (store.Store(self.redis.client, "yard", 8, here._replace(started=at), False)
                    for at in (before - 1, clock.now()))  # fmt: skip
        self.assertRaises(store.Elsewhere, old.take)
        self.assertIsNone(new.take())

    def test_a_record_of_before(self):
        """One that tells no machine is of any of its host, and the next one tells it."""
        mine = places.here_of(self.server.port).place
        for moved in ("", " moved"):
            self.show_other(GRIDS[1], self.host + moved)
            follower = self.follow(host=self.host)
            before = follower.wait(timeout=PATIENCE)
            with self.publish(self.server.port) as publisher:
                self.assertTrue(until(lambda: self.told() == mine + moved))
                self.assertTrue(until(lambda: follower.version.order > before.order))
                self.assertEqual((publisher.end(), publisher.said), (0, []))

    def test_a_word(self):
        """It stands for the host and the machine, for publishers and followers."""
        here, other = self.follow(host="north"), self.follow(host=socket.gethostname())
        with self.publish(self.server.port, "--place", "north") as publisher:
            self.has(here, self.painter, 0)
            self.assertEqual(self.told(), f"north:{self.server.port}")
            with self.assertRaisesRegex(clearmap.NoVersion, "is from north:.* is expected"):
                other.wait(timeout=1)
            publisher.end()
        for words in ((), ("--place", "south")):
            second = self.publish(self.server.port, *words)
            self.assertEqual(second.process.wait(PATIENCE), 1)
            self.assertTrue(second.says(f"published last from north:{self.server.port}, and this"))
        again = self.publish(self.server.port, "--place", "north")
        self.has(here, self.painter, self.painter.publish())
        self.assertEqual((again.end(), again.said), (0, []))


class Here(unittest.TestCase):
    """What this machine is told as."""

    def setUp(self):
        self.file = pathlib.Path(self.enterContext(tempfile.TemporaryDirectory())) / "machine-id"
        self.enterContext(mock.patch.object(places, "MACHINE_ID", self.file))

    def test_machines(self):
        told = set()
        for digit in "0123":
            self.file.write_text(32 * digit + "\n")
            host, machine = places.here_of(7400).place.split(" ")
            self.assertEqual(host, f"{socket.gethostname()}:7400")
            self.assertRegex(machine, "^[0-9a-f]{8}$")
            self.assertNotIn(machine, 32 * digit)
            told.add(machine)
        self.assertEqual(len(told), 4)

    def test_when_it_was_started(self):
        """The first process tells it, whatever its name is; one that is hidden doesn't."""
        self.file.write_text(32 * "0")
        first = self.file.with_name("stat")
        self.enterContext(mock.patch.object(places, "FIRST", first))
        self.assertEqual(places.here_of(7400).started, 0)
        ticks = 250 * os.sysconf("SC_CLK_TCK")
        first.write_text(f"1 (a) b 3) S {' '.join(map(str, range(4, 22)))} {ticks} 23 24\n")
        self.assertEqual(places.here_of(7400).started, 250)

    def test_none(self):
        """A machine that nobody can tell from another one publishes only by a word."""
        for text in (None, b"", b"uninitialized\n", b"\xff\n", 33 * b"0"):
            self.file.unlink(missing_ok=True)
            if text is not None:
                self.file.write_bytes(text)
            with self.assertRaisesRegex(ValueError, "machine-id tells this .* --place WORD$"):
                places.here_of(7400)
            self.assertEqual(places.here_of(7400, "north"), ("north:7400", "", 0))

    def test_what_is_said(self):
        """One line, before anything is published."""
        words = ["clearmap-publish", "--port", "7400", "--name", "yard"]
        run = f"import pathlib, sys; sys.path.insert(0, {str(HERE)!r}); import places"
        run += f"; places.MACHINE_ID = pathlib.Path({str(self.file)!r}); sys.argv = {words!r}"
        run += "; import clearmap_publish; sys.exit(clearmap_publish.main())"
        ended = subprocess.run([sys.executable, "-c", run], capture_output=True, timeout=PATIENCE)
        said = f"no {self.file} tells this machine from others: name it by --place WORD\n"
        self.assertEqual(ended.stderr.decode(), f"clearmap-publish: {said}")
        self.assertEqual(ended.returncode, 1)


if __name__ == "__main__":
    unittest.main()
