#!/usr/bin/env python3
"""Tests of pages that outlive the run of clearmap-view which they were loaded from. CLEARMAP names
the built program."""
import json
import re
import sys
import unittest

from testing import InBrowser, Viewing, alert_is_present

RUN = re.compile(rb'name="run" content="([^"]+)"')


class Runs(Viewing):
    def test_each_run_has_a_name(self):
        """Which its page and its states have."""
        names = set()
        for _ in range(2):
            viewed, state = self.view()
            self.assertEqual(RUN.search(viewed.ask("GET", "/")[1])[1].decode(), state["run"])
            names.add(state["run"])
        self.assertEqual(len(names), 2)

    def test_the_token_of_another_run(self):
        """It changes nothing, and what to do is told."""
        self.view()
        token = self.token
        viewed, _ = self.view()
        paint = json.dumps({"command": "paint", "rect": [0, 0, 1, 1]})
        status, said = viewed.ask("POST", "/change", paint, X_Clearmap_Token=token)
        wanted = "A change wants the token of this run: load the page again."
        self.assertEqual((status, json.loads(said)["fault"]), (403, wanted))


class StartedAgain(InBrowser):
    def known(self, name):
        """The text of a part of the page, which may be loaded again meanwhile."""
        script = "const part = document.getElementById(arguments[0]);"
        script += "return part && !part.hidden ? part.textContent : ''"
        return self.driver.execute_script(script, name)

    def start_again(self):
        """Ends the page's server, and starts one on the same port."""
        self.viewed.end()
        self.until(lambda: self.known("strip").startswith("clearmap-view lost"))
        self.serve_page("--web", str(self.viewed.port))

    def paint(self, x, y, said):
        self.mode("paint")
        self.to(x, y).click().perform()
        self.until(lambda: self.text("said") == said)

    def test_what_was_drawn_before(self):
        """The page says what isn't shown any more until there is another version, and gives
        commands at once."""
        self.open()
        self.paint(4, 2, "1 cell of the draft painted, place 1 of the log.")
        self.start_again()
        again = r"^clearmap-view was started again at \d\d:\d\d:\d\d, and doesn't show 1 rectangle"
        again += r" that was drawn before: the draft may still have it\.$"
        self.until(lambda: re.search(again, self.known("again")))
        self.until(lambda: self.known("said").endswith("the page was loaded again."))
        self.until(lambda: self.known("version") == "version 0")
        self.paint(5, 2, "1 cell of the draft painted, place 2 of the log.")
        self.start_again()
        both = "doesn't show 2 rectangles that were drawn before"
        self.until(lambda: both in self.known("again"))
        self.driver.refresh()
        self.until(lambda: both in self.known("again"))
        self.until(lambda: self.button("publish").is_enabled())
        self.assertEqual(self.known("said"), "")  # it is news once
        self.press("publish")
        self.until(lambda: alert_is_present()(self.driver)).accept()
        self.until(lambda: self.known("version") == "version 1")
        self.assertEqual(self.known("again"), "")

    def test_nothing_was_drawn_before(self):
        """Then the page is loaded again, as it was seen, and says no more than that."""
        self.open()
        self.mode("path")
        self.to(5, 3).click().perform()
        self.until(lambda: "path=5,3" in self.driver.current_url)
        self.start_again()
        self.until(lambda: self.known("said").endswith("the page was loaded again."))
        self.until(lambda: self.known("path").startswith("tightest at cell 5, 3"))
        self.assertEqual(self.known("again"), "")

    def test_a_revert_makes_the_draft_known(self):
        self.open()
        self.paint(4, 2, "1 cell of the draft painted, place 1 of the log.")
        self.start_again()
        self.until(lambda: "doesn't show 1 rectangle" in self.known("again"))
        self.until(lambda: self.button("revert").is_enabled())
        self.press("revert")
        self.until(lambda: alert_is_present()(self.driver)).accept()
        self.until(lambda: self.known("again") == "")


if __name__ == "__main__":
    sys.exit(unittest.main())
