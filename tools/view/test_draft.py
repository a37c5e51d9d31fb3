#!/usr/bin/env python3
"""Tests of what clearmap-view knows and tells of the draft: by requests, and on the page in
headless Chromium. CLEARMAP names the built program."""
import io
import json
import time
import unittest

from testing import POST, InBrowser, Served, Viewing, alert_is_present

import clearmap
import site_of_map


OTHERS = "Changes of others may be in the draft, which no request shows."


class DraftRequests(Viewing):
    def give(self, viewed, command, **more):
        """What a command is answered."""
        status, said = viewed.ask(
            "POST", "/change", json.dumps({"command": command, **more}), X_Clearmap_Token=self.token
        )
        self.assertEqual(status, 200, said)
        return json.loads(said)

    def loaded(self, viewed):
        """The draft as a page that is loaded now is told it."""
        return next(viewed.events())["draft"]

    def test_the_draft_after_a_reload(self):
        viewed, state = self.view()
        self.assertEqual(
            (state["draft"]["drawn"], state["draft"]["said"]),
            ([], "Nothing changed from here. " + OTHERS),
        )
        self.give(viewed, "paint", rect=[0, 0, 2, 1])
        self.assertIn(
            "1 rectangle from here isn't published yet (place 1 of the log)",
            self.loaded(viewed)["said"],
        )
        self.give(viewed, "clear", rect=[1, 0, 2, 1])
        draft = self.loaded(viewed)
        self.assertEqual(
            draft["drawn"],
            [
                {"command": "paint", "rect": [0, 0, 2, 1], "place": 1},
                {"command": "clear", "rect": [1, 0, 2, 1], "place": 2},
            ],
        )
        self.assertIn(
            "2 rectangles from here aren't published yet (places 1 to 2 of the log). Changes of",
            draft["said"],
        )
        self.assertEqual(
            self.give(viewed, "publish"), {"said": "Published as version 1."}
        )  # each place was our own
        self.assertEqual(self.loaded(viewed)["drawn"], [])
        self.give(viewed, "paint", rect=[0, 0, 2, 1])
        asked = "Revert drops 1 rectangle from here, and what others changed in the draft. Revert?"
        self.assertEqual(self.give(viewed, "revert"), {"asks": asked})
        self.assertEqual(len(self.loaded(viewed)["drawn"]), 1)
        self.give(viewed, "revert", sure=True)
        self.assertEqual(self.loaded(viewed)["drawn"], [])

    def test_a_publish_of_what_is_not_shown_is_asked_about(self):
        with clearmap.Client(self.served.port) as other:
            other.paint(0, 3, 1, 4)
            viewed, _ = self.view()
            self.assertIn("may hold changes of others", self.give(viewed, "publish")["asks"])
            self.assertIn("asks", self.give(viewed, "publish", sure=False))
            self.assertEqual(other.revert(), 2)  # nothing was sent
            self.assertEqual(
                self.give(viewed, "publish", sure=True), {"said": "Published as version 1."}
            )  # place 3
            self.assertEqual(
                self.give(viewed, "publish"), {"said": "Published as version 2."}
            )  # it asks once
            self.give(viewed, "paint", rect=[0, 0, 1, 1])
            other.paint(0, 2, 1, 3)
            self.give(viewed, "collect")
            self.assertIn("asks", self.give(viewed, "publish"))
            self.give(viewed, "revert", sure=True)
            self.assertNotIn("asks", self.give(viewed, "publish"))

    def test_what_others_changed_at_last(self):
        """That others came after the last place of this page is told before a publish; what they
        changed is found in the version."""
        viewed, _ = self.view()
        self.give(viewed, "paint", rect=[0, 0, 2, 1])
        with clearmap.Client(self.served.port) as other:
            other.paint(1, 0, 3, 1)
            other.clear(2, 1, 3, 2)
            asked = self.give(viewed, "publish")["asks"]
            self.assertIn(": 2 commands of others came meanwhile. Publish all of it?", asked)
            self.assertIn("2 commands of others came meanwhile.", self.loaded(viewed)["said"])
            with other.pin() as pinned:
                self.assertEqual(pinned.version, 0)  # nothing was published
            self.give(viewed, "publish", sure=True)
            state = next(it for it in viewed.events() if it.get("version") == 1)
            self.assertIn(
                "Version 1 was published with 2 cells that others changed.", state["draft"]["said"]
            )
            self.give(viewed, "paint", rect=[4, 0, 6, 1])
            self.give(viewed, "clear", rect=[5, 0, 6, 1])
            self.give(viewed, "publish", sure=True)
            state = next(it for it in viewed.events() if it.get("version") == 2)
            self.assertEqual(state["draft"]["said"], "Nothing changed from here. " + OTHERS)

    def test_a_draft_that_another_publishes(self):
        viewed, _ = self.view()
        self.give(viewed, "paint", rect=[0, 0, 1, 1])
        with clearmap.Client(self.served.port) as other:
            other.publish()
            state = next(it for it in viewed.events() if it.get("version") == 1)
            self.assertIn(
                "Another client has published since: they may be in its version",
                state["draft"]["said"],
            )
            self.assertIn("asks", self.give(viewed, "publish"))

    def test_the_draft_of_a_server_that_ended(self):
        viewed, _ = self.view()
        self.give(viewed, "paint", rect=[0, 0, 1, 1])
        self.give(viewed, "publish")
        self.give(viewed, "paint", rect=[0, 0, 1, 1])
        self.served.end()
        draft = next(it for it in viewed.events() if it["fault"])["draft"]
        painted = {"command": "paint", "rect": [0, 0, 1, 1], "place": 4}
        self.assertEqual((draft["drawn"], draft["lost"]), ([], [painted]))
        again = Served(POST, port=self.served.port)
        self.addCleanup(again.end)
        self.served.process.stdout = io.BytesIO()
        draft = next(it for it in viewed.events() if not it["fault"])["draft"]
        self.assertEqual(draft["lost"], [painted])
        self.assertTrue(draft["said"].startswith("1 rectangle from here was lost with the server."))
        self.assertIn("versions count from 0 again", draft["another"])
        self.assertIn("asks", self.give(viewed, "publish"))
        self.give(viewed, "paint", rect=[0, 0, 1, 1])
        self.assertEqual(self.loaded(viewed)["drawn"][0]["place"], 1)
        self.assertEqual(self.give(viewed, "publish"), {"said": "Published as version 1."})


    def test_a_publish_that_was_meant_for_another_server(self):
        """One that was wanted before another server was noticed isn't done there."""
        viewed, _ = self.view()
        self.states.close()
        time.sleep(site_of_map.HEARTBEAT + 0.5)  # no page looks on any more
        self.give(viewed, "paint", rect=[0, 0, 1, 1])
        self.served.end()
        self.served = Served(POST, port=self.served.port)
        self.addCleanup(self.served.end)
        publish = json.dumps({"command": "publish", "sure": True})
        for status, text in (
            (503, "the connection"),
            (409, "Another server runs now: nothing else was done there."),
            (200, "Published as version 1."),
        ):
            got, said = viewed.ask("POST", "/change", publish, X_Clearmap_Token=self.token)
            self.assertEqual(got, status, said)
            self.assertIn(text, said.decode())


class DraftPage(InBrowser):
    def test_a_reload_with_a_draft(self):
        """A page that is loaded again tells what was changed from here, and asks once before it
        publishes what it can't show."""
        self.open()
        with clearmap.Client(self.served.port) as other:
            self.mode("paint")
            self.to(4, 2).click().perform()
            self.until(
                lambda: self.text("draft").startswith(
                    "1 rectangle from here isn't published yet (place 1 of the log)."
                )
            )
            other.paint(0, 0, 1, 1)
            self.driver.refresh()
            self.until(
                lambda: self.text("draft").startswith(
                    "1 rectangle from here isn't published yet (place 1 of the log)."
                )
            )
            self.assertTrue(
                self.text("draft").endswith(
                    "Changes of others may be in the draft, which no request shows."
                )
            )
            self.mode("paint")
            self.to(5, 2).click().perform()
            self.until(
                lambda: self.text("draft").startswith(
                    "2 rectangles from here aren't published yet (places 1 to 3 of the log)."
                )
            )
            for accepted, said in (
                (False, "Nothing was published."),
                (True, "Published as version 1."),
            ):
                self.press("publish")
                asked = self.until(lambda: alert_is_present()(self.driver))
                self.assertIn("may hold changes of others", asked.text)
                asked.accept() if accepted else asked.dismiss()
                self.until(lambda: self.text("said") == said)
                with other.pin() as pinned:
                    self.assertEqual(pinned.version, int(accepted))
            self.until(lambda: self.text("draft").startswith("Nothing changed from here."))
            self.press("publish")
            self.until(lambda: self.text("said") == "Published as version 2.")


if __name__ == "__main__":
    unittest.main()
