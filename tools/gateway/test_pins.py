#!/usr/bin/env python3
"""Tests of what is pinned through a gateway, and what others see of it."""
import random
import socket
import struct
import threading
import unittest

from testing import Gate, Line, Served, post, until


class Pins(unittest.TestCase):
    """What is pinned, and what others see of it."""

    def setUp(self):
        self.server = Served(post(), "--versions", "64", "--workers", "8")
        self.gate = Gate(self.server.port, "--links", "3")
        self.lines = []

    def tearDown(self):
        for line in self.lines:
            line.close()
        self.gate.end()
        self.server.end()

    def line(self):
        self.lines.append(Line(self.gate.port))
        return self.lines[-1]

    def published(self, line):
        return int(line.ask("PUBLISH").split()[2])

    def floor(self, line):
        return int(line.ask("COLLECT").split()[2])

    def test_many_share_one(self):
        """Twenty clients of one version over three connections; the last one gives it up."""
        painter, planners = self.line(), [self.line() for _ in range(20)]
        self.assertEqual({planner.ask("PIN") for planner in planners}, {"OK 0"})
        newest = self.published(painter)
        for planner in planners:
            self.assertEqual(self.floor(painter), 0)
            self.assertEqual(planner.ask("AT chess 5 7"), "OK 0 5 7")
            self.assertEqual(planner.ask("UNPIN"), "OK 0")
        self.assertEqual(self.floor(painter), newest)

    def test_left_by_each_end(self):
        """A pin is left by QUIT before its reply, and soon after a connection ends in any way."""
        painter = self.line()
        for ends in ("quit", "half", "close", "reset"):
            planner = self.line()
            pinned = int(planner.ask("PIN").split()[1])
            newest = self.published(painter)
            self.assertEqual(self.floor(painter), pinned)
            if ends == "quit":
                self.assertEqual(planner.ask("QUIT"), "BYE")
                self.assertEqual(self.floor(painter), newest)
            elif ends == "half":
                planner.socket.shutdown(socket.SHUT_WR)
            elif ends == "reset":
                linger = struct.pack("ii", 1, 0)
                planner.socket.setsockopt(socket.SOL_SOCKET, socket.SO_LINGER, linger)
            if ends in ("close", "reset"):
                planner.close()
            self.assertTrue(until(lambda: self.floor(painter) == newest), ends)

    def test_own_publish_is_pinned(self):
        """A pin has what any client was answered before it: eight clients, one after another."""
        lines = [self.line() for _ in range(8)]
        chance = random.Random(4)
        for _ in range(200):
            newest = self.published(chance.choice(lines))
            self.assertEqual(self.floor(chance.choice(lines)), newest)
            planner = chance.choice(lines)
            self.assertEqual(planner.ask("PIN"), f"OK {newest}")
            self.assertEqual(planner.ask("UNPIN"), f"OK {newest}")

    def test_own_change_is_pinned(self):
        """Six threads, each of which alone changes one cell: its next pin has what it published."""
        wrong = []

        def work(x):
            with Line(self.gate.port) as line:
                for turn in range(40):
                    name, near = (("PAINT", "OK 0"), ("CLEAR", "OK "))[turn % 2]
                    line.ask(f"{name} {x} 20 {x + 1} 21")
                    while not line.ask("PUBLISH").startswith("OK"):
                        line.ask("COLLECT")
                    line.send("PIN", f"AT city {x} 20", "UNPIN")
                    said = [line.reply() for _ in range(3)]
                    is_there = said[1] == f"OK 0 {x} 20"
                    if not said[1].startswith(near) or is_there != (name == "PAINT"):
                        wrong.append((name, said))

        threads = [threading.Thread(target=work, args=(3 * x,)) for x in range(6)]
        for thread in threads:
            thread.start()
        for thread in threads:
            thread.join()
        self.assertEqual(wrong, [])
        painter = self.line()
        newest = self.published(painter)
        self.assertTrue(until(lambda: self.floor(painter) == newest))

    def test_each_answers_of_its_own_version(self):
        """Two versions at a time, of two clients; a third version waits for one to be left."""
        painter, first, second, third = (self.line() for _ in range(4))
        self.assertEqual(first.ask("PIN"), "OK 0")
        painter.ask("PAINT 0 0 1 1")
        self.published(painter)
        self.assertEqual(second.ask("PIN"), "OK 1")
        painter.ask("PAINT 1 0 2 1")
        newest = self.published(painter)
        third.send("PIN", "AT city 1 0")
        self.assertTrue(third.is_silent())
        for _ in range(3):
            self.assertEqual(first.ask("AT city 0 0"), "OK 12 5 7")
            self.assertEqual(second.ask("AT city 1 0"), "OK 1 0 0")
        self.assertEqual(self.published(painter), newest + 1)
        self.assertEqual(first.ask("UNPIN"), "OK 0")
        self.assertEqual(third.reply(), f"OK {newest + 1}")
        self.assertEqual(third.reply(), "OK 0 1 0")

    def test_a_client_that_waits_for_a_pin_goes_away(self):
        painter, first, second, third = (self.line() for _ in range(4))
        for planner in (first, second):
            planner.ask("PIN")
            newest = self.published(painter)
        third.send("PIN")
        self.assertTrue(third.is_silent(0.1))
        third.close()
        self.assertEqual([first.ask("UNPIN"), second.ask("UNPIN")], ["OK 0", "OK 1"])
        self.assertTrue(until(lambda: self.floor(painter) == newest))
        self.assertEqual(self.line().ask("PIN"), f"OK {newest}")

    def test_watch(self):
        """Each new version, whoever publishes it, and never inside a reply."""
        watcher, painter = self.line(), self.line()
        self.assertEqual(watcher.ask("WATCH 1"), "ERR 12 BadArguments")
        self.assertEqual(watcher.ask("WATCH"), "OK 0")
        self.assertEqual(self.published(painter), 1)
        self.assertEqual(watcher.reply(), "VERSION 1")
        with Line(self.server.port) as direct:
            self.assertEqual(direct.ask("PUBLISH"), "OK 2 2")
        self.assertEqual(watcher.reply(), "VERSION 2")
        self.assertEqual(watcher.ask("PIN"), "OK 2")
        self.assertTrue(watcher.is_silent(0.2))

    def test_watch_between_dumps(self):
        """News of versions come between dumps, and never in one."""
        watcher, painter = self.line(), self.line()
        self.assertEqual([watcher.ask("WATCH"), watcher.ask("PIN")], ["OK 0", "OK 0"])
        versions, dumped = [], 0
        while dumped < 60:
            newest = self.published(painter)
            self.floor(painter)
            watcher.send("DUMP", "DUMP")
            wanted = dumped + 2
            while dumped < wanted:
                words = watcher.reply().split()
                if words[0] == "VERSION":
                    versions.append(int(words[1]))
                else:
                    text = watcher.replies.read(int(words[1]))
                    self.assertEqual(text[:9], b"P1\n64 48\n")
                    dumped += 1
        while newest not in versions:
            versions.append(int(watcher.reply().split()[1]))
        self.assertEqual(versions, sorted(set(versions)))


if __name__ == "__main__":
    unittest.main()
