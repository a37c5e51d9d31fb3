#!/usr/bin/env python3
"""Tests of how long clearmap-view holds a worker of the server, and of what it knows afterwards.
CLEARMAP names the built program."""
import json
import signal
import sys
import time
import unittest

from testing import POST, Viewing

import clearmap
import watched
from served import Served

ONE = ("--workers", "1")
WALLED = b"P1\n6 4\n000000\n001000\n000100\n000000\n"


class Stays(unittest.TestCase):
    def test_how_long(self):
        """A question keeps the connection for seconds, a change for a minute; none shortens it."""
        now = 100.0
        it = watched.Watched(1, lambda _: None, clock=lambda: now)
        self.assertFalse(it.stays)
        it.stay(watched.AFTER_A_CHANGE)
        it.stay(watched.AFTER_A_QUESTION)
        for later, stays in ((5.1, True), (59.9, True), (60.1, False)):
            now = 100.0 + later
            self.assertEqual(it.stays, stays, later)


class Workers(Viewing):
    """Pages of a server that serves one connection at a time."""

    def setUp(self):
        self.served = Served(POST, *ONE)
        self.addCleanup(self.served.end)

    def until(self, holds, seconds=20):
        """Waits until something holds, which has to be within some seconds."""
        end = time.monotonic() + seconds
        while not holds():
            self.assertLess(time.monotonic(), end)
            time.sleep(0.05)

    def test_a_page_that_asks_nothing_holds_no_worker(self):
        """Ten clients are served, one after another, while a page is open, and it still follows."""
        viewed, _ = self.view()
        viewed.ask("GET", "/picture/euclid2")
        for _ in range(10):
            with clearmap.Client(self.served.port, timeout=8) as other:
                with other.pin() as pinned:
                    self.assertEqual(pinned.at(5, 3).distance, 13)
        with clearmap.Client(self.served.port, timeout=8) as other:
            other.paint(5, 3, 6, 4)
            other.publish()
        self.assertEqual(next(it for it in self.states if it.get("version"))["version"], 1)

    def test_a_question_holds_it_for_a_while_alone(self):
        viewed, _ = self.view()
        self.assertEqual(viewed.ask("GET", "/at?metric=city&x=0&y=0")[0], 200)
        with clearmap.Client(self.served.port, timeout=watched.AFTER_A_QUESTION + 8) as other:
            self.assertEqual(other.revert(), 1)

    def test_a_server_that_hangs(self):
        """While the server answers nothing, the version that is shown is asked all the same."""
        if not self.in_process:
            self.skipTest("there is no library")
        viewed, _ = self.view()
        viewed.ask("GET", "/at?metric=city&x=0&y=0")
        self.served.process.send_signal(signal.SIGSTOP)
        self.addCleanup(self.served.process.send_signal, signal.SIGCONT)
        end = time.monotonic() + 3
        while time.monotonic() < end:
            start = time.monotonic()
            told = json.loads(viewed.ask("GET", "/at?metric=city&x=5&y=3")[1])
            self.assertEqual(told["distance"], 5)
            self.assertLess(time.monotonic() - start, 1)
            time.sleep(0.05)

    def test_what_is_drawn_holds_it(self):
        """A server that ends while rectangles wait for a publish is noticed: none is told then."""
        viewed, _ = self.view()
        token = {"X_Clearmap_Token": self.token}
        paint = json.dumps({"command": "paint", "rect": [0, 0, 1, 1]})
        self.assertEqual(viewed.ask("POST", "/change", paint, **token)[0], 200)
        next(it for it in self.states if it["draft"]["drawn"])
        self.served.end()
        state = next(it for it in self.states if it["fault"])
        self.assertEqual(state["draft"]["drawn"], [])

    def test_another_server_with_the_same_version(self):
        """After the connection was left, another server of the same port and version number is seen
        by its map."""
        viewed, state = self.view()
        first = state["serial"]
        time.sleep(1)
        self.served.process.kill()
        self.served.process.wait()
        again = Served(WALLED, *ONE, port=self.served.port)
        self.addCleanup(again.end)
        state = next(it for it in self.states if it["serial"] != first)
        self.assertEqual((state["version"], state["fault"]), (0, ""))
        told = json.loads(viewed.ask("GET", "/at?metric=city&x=3&y=2")[1])
        self.assertEqual(told["distance"], 0)

    def test_a_publish_asks_again_once_the_connection_was_left(self):
        """Others may have drawn meanwhile, even where the places fit."""
        from draft import Draft

        draft = Draft()
        draft.reverted(1)
        self.assertFalse(draft.asks)
        draft.left()
        self.assertTrue(draft.asks)
        draft.drew("paint", (0, 0, 1, 1), 2)  # as place 1 of another server and then our own
        self.assertTrue(draft.asks)
        draft.reverted(3)
        self.assertFalse(draft.asks)


if __name__ == "__main__":
    sys.exit(unittest.main())
