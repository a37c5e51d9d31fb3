#!/usr/bin/env python3
"""Tests of what clearmap-view knows of the draft by the places of the log alone."""
import unittest

import testing  # so that the page's own modules are found

from draft import Draft


class Places(unittest.TestCase):
    def test_alone(self):
        """Whether a publish asks, after events of a draft: each is a call and its arguments."""
        drew = lambda place: ("drew", "paint", (0, 0, 1, 1), place)
        rows = (
            ((), True),  # somebody may have drawn before
            ((drew(1),), False),
            ((drew(2),), True),
            ((drew(1), drew(2), ("passed", 3)), False),
            ((drew(1), drew(3)), True),
            ((drew(1), drew(3), ("reverted", 4)), False),
            ((drew(7), ("published", 1, 8)), False),
            ((drew(7), ("published", 1, 8), drew(9)), False),
            ((drew(7), ("published", 1, 8), drew(10)), True),
            ((drew(7), ("published", 1, 10), drew(11)), False),
            ((drew(7), ("published", 1, 10), drew(12)), True),
            ((drew(7), ("published", 1, 8), ("saw", 1)), False),
            ((drew(7), ("published", 1, 8), ("saw", 2)), True),
            ((("published", 1, 1), ("saw", 1), drew(3)), True),
            ((drew(7), ("published", 1, 5), drew(6)), False),  # another server's
            ((("reverted", 5), ("saw", 4), ("saw", 3)), True),  # another server
            ((("reverted", 5), drew(1)), False),  # another server, and nobody before
            ((("reverted", 5), drew(2)), True),
            ((("reverted", 5), ("lost",)), True),
        )
        for events, asks in rows:
            draft = Draft()
            for name, *words in events:
                getattr(draft, name)(*words)
            self.assertEqual(draft.asks, asks, events)

    def test_others_just_before_a_publish(self):
        """They came after the last place that was looked at, and are in the version."""
        for events, place, between in (
            ((("passed", 7),), 8, 0),
            ((("passed", 7),), 10, 2),
            ((), 10, 0),  # nothing is known of the places before
            ((("passed", 7), ("lost",)), 10, 0),
        ):
            draft = Draft()
            for name, *words in events:
                getattr(draft, name)(*words)
            self.assertEqual(draft.published(1, place), between, events)

    def test_another_server(self):
        """Rectangles of an earlier server aren't told."""
        for name, *words in (("drew", "clear", (0, 0, 1, 1), 1), ("saw", 2), ("lost",)):
            draft = Draft()
            draft.saw(3)
            draft.drew("paint", (1, 1, 2, 2), 4)
            getattr(draft, name)(*words)
            self.assertNotIn("paint", [it["command"] for it in draft.state()["drawn"]], name)
            self.assertEqual([it["rect"] for it in draft.state()["lost"]], [(1, 1, 2, 2)], name)

    def test_what_is_known_of_the_lost(self):
        """Whether a server still has what was drawn is told as far as it is known: it hasn't, once
        nobody listens or another server is seen."""
        unknown, gone = "whether the server still has 1 rectangle", "was lost with the server"
        rows = (
            ((("lost",),), unknown, False),
            ((("lost", True),), gone, False),
            ((("lost",), ("saw", 3)), unknown, False),  # a gateway that ended the connection
            ((("lost",), ("passed", 5)), unknown, False),
            ((("lost",), ("passed", 4)), gone, True),  # its places count again
            ((("lost",), ("saw", 2)), gone, True),
            ((("lost",), ("published", 3, 5)), gone, True),
            ((("lost",), ("published", 4, 4)), gone, True),  # its places count again
            ((("lost", True), ("saw", 3)), gone, True),  # of the same version, and another
            ((("lost", True), ("drew", "clear", (0, 0, 1, 1), 9), ("saw", 3)), gone, True),
            ((("passed", 2),), gone, True),
        )
        for events, said, another in rows:
            draft = Draft()
            draft.saw(3)
            draft.drew("paint", (1, 1, 2, 2), 4)
            for name, *words in events:
                getattr(draft, name)(*words)
            state = draft.state()
            self.assertIn(said, state["said"], events)
            self.assertNotIn("Nothing changed", state["said"], events)
            self.assertEqual(bool(state["another"]), another, events)
            self.assertEqual(len(state["drawn"]), int(len(events) == 3), events)
            draft.forget_lost()
            self.assertEqual(draft.state()["lost"], [], events)

    def test_a_command_without_a_reply(self):
        """It isn't taken for lost, nor for accepted."""
        draft = Draft()
        draft.drew("paint", (1, 1, 2, 2), 1)
        draft.unanswered("publish")
        self.assertTrue(draft.asks)
        state = draft.state()
        self.assertIn("didn't answer the publish: whether it was accepted isn't", state["said"])
        self.assertEqual((len(state["drawn"]), state["lost"]), (1, []))


if __name__ == "__main__":
    unittest.main()
