#!/usr/bin/env python3
"""Tests of replies that come later than clearmap-view's page waits for them, or don't come.
CLEARMAP names the built program."""
import contextlib
import json
import signal
import socket
import sys
import threading
import time
import unittest

from testing import Viewing

import clearmap
from draft import Draft

PAINTED = b"P1\n6 4\n000000\n001000\n000110\n000000\n"


class Holding:
    """A port in front of a server's. Replies are held back from the command on that starts with the
    word `held`, until `go_on`; with `cuts` its reply ends the connection."""

    def __init__(self, port):
        self.server, self.held, self.passes = port, None, threading.Event()
        self.cuts = False
        self.passes.set()
        self.listener = socket.create_server(("127.0.0.1", 0))
        self.port = self.listener.getsockname()[1]
        threading.Thread(target=self.accept, daemon=True).start()

    def accept(self):
        """Takes connections until the listener is closed."""
        with contextlib.suppress(OSError):
            while True:
                near = self.listener.accept()[0]
                threading.Thread(target=self.serve, args=(near,), daemon=True).start()

    def serve(self, near):
        """Passes on what a connection carries, both ways."""
        with near, socket.create_connection(("127.0.0.1", self.server)) as far:
            words = self.answered, far, near
            back = threading.Thread(target=self.pass_on, args=words, daemon=True)
            back.start()
            self.pass_on(self.asked, near, far)
            back.join()

    def pass_on(self, look, source, target):
        """Passes on what comes, once it was looked at, and then the end."""
        with contextlib.suppress(OSError):
            while data := source.recv(65536):
                look(data)
                target.sendall(data)
        with contextlib.suppress(OSError):
            target.shutdown(socket.SHUT_WR)

    def asked(self, data):
        if self.held and data.startswith(self.held):
            self.passes.clear()

    def answered(self, _):
        if self.cuts and not self.passes.is_set():
            raise ConnectionError("cut")
        self.passes.wait()

    def go_on(self):
        self.held, self.cuts = None, False
        self.passes.set()


class Late(Viewing):
    def setUp(self):
        super().setUp()
        self.before = Holding(self.served.port)
        self.addCleanup(self.before.listener.close)
        self.addCleanup(self.before.go_on)

    @property
    def port(self):
        return self.before.port

    def give(self, viewed, command, **more):
        """What a command is answered, and its status."""
        body = json.dumps({"command": command, **more})
        status, said = viewed.ask("POST", "/change", body, X_Clearmap_Token=self.token)
        told = json.loads(said)
        return status, told.get("said", told.get("fault"))

    def until_said(self, text):
        """The first state whose draft says this."""
        return next(it for it in self.states if text in it["draft"]["said"])

    def test_a_paint_that_is_answered_late(self):
        """It is told as our own, also where the page was told that there is no answer yet."""
        viewed, _ = self.view()
        self.give(viewed, "revert", sure=True)
        self.before.held = b"PAINT"
        said = "The server hasn't answered the paint yet: it is waited for."
        self.assertEqual(self.give(viewed, "paint", rect=[3, 2, 5, 3]), (504, said))
        self.until_said("The server hasn't answered the paint yet.")
        start = time.monotonic()
        said = "The server hasn't answered the paint yet: nothing was sent."
        self.assertEqual(self.give(viewed, "publish"), (409, said))
        self.assertLess(time.monotonic() - start, 1)
        self.before.go_on()
        said = "The paint was answered late: 2 cells of the draft painted, place 2 of the log."
        draft = self.until_said(said)["draft"]
        painted = {"command": "paint", "rect": [3, 2, 5, 3], "place": 2}
        self.assertEqual((draft["drawn"], draft["undo"]), ([painted], True))
        self.assertEqual(self.give(viewed, "publish"), (200, "Published as version 1."))
        said = next(viewed.events())["draft"]["said"]
        self.assertTrue(said.startswith("Nothing changed from here."), said)
        self.assertNotIn("others came", said)
        with clearmap.Client(self.served.port) as other, other.pin() as pinned:
            self.assertEqual(pinned.dump(), PAINTED)

    def test_a_refusal_that_comes_late(self):
        viewed, _ = self.view()
        self.before.held = b"PAINT"
        self.assertEqual(self.give(viewed, "paint", rect=[0, 0, 7, 1])[0], 504)
        self.before.go_on()
        said = "The paint was answered late: Refused: that isn't wholly on the map (ERR 1"
        self.assertEqual(self.until_said(said)["draft"]["drawn"], [])
        self.give(viewed, "collect")
        self.assertNotIn("late", next(viewed.events())["draft"]["said"])

    def test_nothing_is_published_late(self):
        """A publish looks for others first, and isn't sent once that takes too long."""
        viewed, _ = self.view()
        self.give(viewed, "revert", sure=True)
        self.before.held = b"COLLECT"
        answer = self.give(viewed, "publish")
        self.assertEqual(answer, (504, "The server hasn't answered yet: nothing was done."))
        self.before.go_on()
        self.until_said("The collect was answered late")
        with clearmap.Client(self.served.port) as other, other.pin() as pinned:
            self.assertEqual(pinned.version, 0)

    def test_a_look_that_is_answered_late(self):
        """It is told in time, and no command waits for it that nobody may want by then."""
        viewed, _ = self.view()
        self.give(viewed, "paint", rect=[3, 2, 5, 3])  # so that the server is looked at
        self.served.process.send_signal(signal.SIGSTOP)
        self.addCleanup(self.served.process.send_signal, signal.SIGCONT)
        state = next(it for it in self.states if it["fault"])
        self.assertIn("can't be asked: it hasn't answered for 5 s", state["fault"])
        said = "an earlier request has no reply yet, so nothing was sent."
        self.assertEqual(self.give(viewed, "clear", rect=[3, 2, 5, 3]), (503, said))
        self.served.process.send_signal(signal.SIGCONT)
        state = next(it for it in self.states if not it["fault"])
        self.assertEqual([it["command"] for it in state["draft"]["drawn"]], ["paint"])
        self.assertIn("place 2 of the log", self.give(viewed, "paint", rect=[0, 0, 1, 1])[1])

    def test_a_reply_that_is_lost(self):
        """A gateway may end the connection: the draft may have what was painted."""
        viewed, _ = self.view()
        self.before.held, self.before.cuts = b"PAINT", True
        status, said = self.give(viewed, "paint", rect=[3, 2, 5, 3])
        self.assertEqual(status, 503, said)
        said = "The server didn't answer the paint: whether it was accepted isn't known."
        self.assertIn(said, next(viewed.events())["draft"]["said"])
        self.before.go_on()
        self.assertEqual(self.give(viewed, "publish", sure=True), (200, "Published as version 1."))
        self.assertNotIn(said, next(viewed.events())["draft"]["said"])
        with clearmap.Client(self.served.port) as other, other.pin() as pinned:
            self.assertEqual(pinned.dump(), PAINTED)

    def test_the_end_while_a_reply_is_late(self):
        """clearmap-view doesn't wait for it."""
        viewed, _ = self.view()
        self.before.held = b"PAINT"
        self.assertEqual(self.give(viewed, "paint", rect=[3, 2, 5, 3])[0], 504)
        start = time.monotonic()
        viewed.process.terminate()
        viewed.process.wait(30)
        self.assertLess(time.monotonic() - start, 10)


class Unanswered(unittest.TestCase):
    def test_a_reply_that_never_came(self):
        """What came meanwhile isn't told as of others alone."""
        draft = Draft()
        draft.reverted(1)
        draft.unanswered("paint")
        draft.passed(3)
        said = "1 command of others, or the paint without an answer, came meanwhile"
        self.assertIn(f"{said}.", draft.state()["said"])
        self.assertIn(said, draft.hidden)
        draft.reverted(5)
        self.assertNotIn("came meanwhile", draft.state()["said"])


if __name__ == "__main__":
    sys.exit(unittest.main())
