#!/usr/bin/env python3
"""Tests of what clearmap-view's page tells once its server is lost: the age of what is shown, what
was drawn, and that another server runs. CLEARMAP names the built program."""
import io
import signal
import sys
import time
import unittest

from testing import POST, By, InBrowser, Viewing

import clearmap
import watched
from served import Served


class Ages(Viewing):
    def test_the_age_of_what_is_shown(self):
        """It counts from before the last look that was answered, whatever the server does then."""
        viewed, _ = self.view()
        viewed.ask("GET", "/at?metric=city&x=0&y=0")  # the connection stays for a while
        time.sleep(0.5)
        start = time.monotonic()
        self.served.process.send_signal(signal.SIGSTOP)
        self.addCleanup(self.served.process.send_signal, signal.SIGCONT)
        state = next(it for it in self.states if it["fault"])
        spent = time.monotonic() - start
        self.assertGreater(spent, watched.PATIENCE - 1)
        self.assertGreater(state["age"], spent - 0.05)
        self.assertLess(state["age"], spent + 3)
        time.sleep(1)
        self.assertGreater(next(viewed.events())["age"], state["age"] + 0.9)


class Lost(InBrowser):
    def restart(self, image=POST):
        """Another server on the port of the one that ended."""
        again = Served(image, port=self.served.port)
        self.addCleanup(again.end)
        self.served.process.stdout = io.BytesIO()
        self.served = again

    def shown(self, name):
        """Whether a part of the page is seen."""
        return self.driver.find_element(By.ID, name).is_displayed()

    def box(self, selector):
        return self.driver.find_element(By.CSS_SELECTOR, selector).rect

    def age(self):
        """The seconds that the strip tells."""
        said = self.text("strip")
        self.assertRegex(said, r"^Server lost: version 0, last seen \d+ s ago$")
        return int(said.split()[-3])

    def class_of(self, name):
        return self.driver.find_element(By.ID, name).get_attribute("class")

    def test_the_strip(self):
        """It tells an age that goes on, covers nothing, and goes with the next server."""
        self.open()
        self.assertFalse(self.shown("strip"))
        self.mode("path")
        self.to(5, 3).click().perform()  # so that the end is noticed at once
        self.until(lambda: "tightest" in self.text("path"))
        start = time.monotonic()
        self.served.end()
        self.until(lambda: self.shown("strip"))
        self.assertEqual((self.text("version"), self.class_of("version")), ("version 0", "old"))
        first = self.age()
        self.until(lambda: self.age() >= first + 2)
        self.assertLess(abs(self.age() - (time.monotonic() - start)), 3)
        strip, area = self.box("#strip"), self.box("#map")
        self.assertLessEqual(strip["y"] + strip["height"], area["y"])
        self.assertEqual(strip["width"], area["width"])
        self.restart()
        self.until(lambda: not self.shown("strip"))
        self.assertEqual(self.class_of("version"), "")

    def test_the_page_server_ends(self):
        """Then the age counts from what it told last, and no command can be given."""
        self.open()
        self.mode("paint")
        self.viewed.end()
        self.until(lambda: self.text("strip").startswith("clearmap-view lost: version 0, last"))
        first = int(self.text("strip").split()[-3])
        self.until(lambda: int(self.text("strip").split()[-3]) >= first + 2)
        commands = self.driver.find_elements(By.CSS_SELECTOR, ".changes button")
        self.assertFalse(any(it.is_enabled() for it in commands))
        chosen = self.driver.find_element(By.CSS_SELECTOR, "[data-mode][aria-pressed=true]")
        self.assertEqual(chosen.get_attribute("data-mode"), "look")

    def test_the_page_server_hangs(self):
        """Then it sends no heartbeat, which is noticed, and so is that it goes on."""
        self.open()
        self.viewed.process.send_signal(signal.SIGSTOP)
        self.addCleanup(self.viewed.process.send_signal, signal.SIGCONT)
        start = time.monotonic()
        self.until(lambda: self.text("strip").startswith("clearmap-view lost: version 0, last"))
        told = int(self.text("strip").split()[-3])
        self.assertGreaterEqual(told + 1, time.monotonic() - start)
        self.viewed.process.send_signal(signal.SIGCONT)
        self.until(lambda: not self.shown("strip"))

    def white(self, x, y):
        """How many pixels of the marks on a cell's left side are white, and how many dark."""
        return self.driver.execute_async_script(
            """const [x, y, done] = arguments;
            const [px, top] = window.clearmapView.pixel(x, y).map(Math.round);
            const [, end] = window.clearmapView.pixel(x, y + 1).map(Math.round);
            const context = document.getElementById("marks").getContext("2d");
            requestAnimationFrame(() => setTimeout(() => {
              const { data } = context.getImageData(px, top + 8, 1, end - top - 16);
              const seen = Array.from({ length: data.length / 4 }, (_, k) => k)
                .filter((k) => data[4 * k + 3] > 200);
              const reds = seen.map((k) => data[4 * k]);
              done([reds.filter((it) => it > 240).length, reds.filter((it) => it < 200).length]);
            }, 30));""",
            x, y,
        )  # fmt: skip

    def test_what_was_drawn_is_lost(self):
        """It stays on the map, dashed, until one forgets it; another server is told."""
        self.open()
        self.mode("paint")
        self.to(4, 2).click().perform()
        self.until(lambda: self.button("publish").text == "Publish 1 change")
        self.press("publish")
        self.until(lambda: self.text("version") == "version 1")
        self.to(4, 2).click().perform()
        self.until(lambda: self.button("publish").text == "Publish 1 change")
        solid, _ = self.white(4, 2)
        self.assertEqual(solid, 0)
        self.served.end()
        lost = "1 rectangle from here was lost with the server."
        self.until(lambda: self.text("draft").startswith(lost))
        dashes, others = self.white(4, 2)
        self.assertGreater(min(dashes, others), 10)
        self.assertFalse(self.shown("another"))
        self.restart()
        self.until(lambda: self.text("version") == "version 0")
        said = r"^Another server since \d\d:\d\d:\d\d: versions count from 0 again\.$"
        self.assertRegex(self.text("another"), said)
        self.assertTrue(self.text("draft").startswith(lost))
        self.assertTrue(self.shown("gone"))
        self.driver.find_element(By.ID, "forget-lost").click()
        self.until(lambda: self.text("draft").startswith("Nothing changed from here."))
        self.assertEqual((self.white(4, 2), self.shown("gone")), ([0, 0], False))
        self.assertTrue(self.shown("another"))
        self.assertFalse(self.shown("redraw"))

    def lose(self, *cells, image=POST):
        """Paints cells, clears the last one, and loses all of it; another server has this map."""
        self.open()
        for name, cell in [*(("paint", cell) for cell in cells), ("clear", cells[-1])]:
            self.mode(name)
            self.to(*cell).click().perform()
            self.until(lambda: self.text("said").startswith("1 cell of the draft"))
            self.until(lambda: name in self.text("said"))
        self.until(lambda: self.button("publish").text == f"Publish {len(cells) + 1} changes")
        self.served.end()
        self.until(lambda: "lost with the server" in self.text("draft"))
        self.assertFalse(self.button("redraw").is_enabled())
        self.restart(image)
        self.until(lambda: self.button("redraw").is_enabled())
        self.press("redraw")

    def test_what_was_lost_is_drawn_again(self):
        """By one click, in the same order, and it can be undone as what was drawn here."""
        self.lose((4, 2), (5, 3), (5, 2))
        self.until(lambda: self.text("said") == "4 of 4 lost rectangles drawn again.")
        self.until(lambda: self.button("publish").text == "Publish 4 changes")
        self.assertEqual((self.shown("redraw"), self.shown("gone")), (False, False))
        self.driver.find_element(By.ID, "undo").click()
        self.until(lambda: self.button("publish").text == "Publish 3 changes")
        self.press("publish")
        self.until(lambda: self.text("version") == "version 1")
        with clearmap.Client(self.served.port) as other, other.pin() as pinned:
            self.assertEqual(pinned.dump(), POST[:-14] + b"000011\n000001\n")

    def test_what_lies_off_the_next_map(self):
        """It stays lost, and the others are drawn."""
        self.lose((4, 2), (0, 0), (1, 1), image=b"P1\n3 2\n000\n000\n")
        said = "3 of 4 lost rectangles drawn again. Refused: that isn't wholly on the map"
        self.until(lambda: self.text("said").startswith(said))
        self.until(lambda: self.button("publish").text == "Publish 3 changes")
        self.assertTrue(self.text("draft").startswith("1 rectangle from here was lost"))
        self.assertTrue(self.shown("redraw"))


if __name__ == "__main__":
    sys.exit(unittest.main())
