#!/usr/bin/env python3
"""Tests of clearmap-view's page in headless Chromium: the pointer, the keys, paths, links and
changes. CLEARMAP names the built program."""
import sys
import time
import unittest

from testing import OBSTACLE, POST, ActionChains, By, InBrowser, Select, webdriver
from testing import alert_is_present

import clearmap
import numpy


class Page(InBrowser):
    def press_key(self, key):
        """Presses a key, wherever the focus is."""
        self.driver.switch_to.active_element.send_keys(key)

    def name(self, identity):
        """The class of a part of the page."""
        return self.driver.find_element(By.ID, identity).get_attribute("class")

    def set_radius(self, radius):
        field = self.driver.find_element(By.ID, "radius")
        field.clear()
        field.send_keys(radius + "\n")

    def test_the_largest(self):
        """The first picture of the largest map comes in a second and a half on a quiet machine, and
        an answer to pointing in 10 ms: ten and fifty times that is allowed on a busy one."""
        side = 4096
        rows = numpy.zeros((side, side), numpy.uint8)
        rows[::256, :] = rows[:, ::512] = rows[1024:1152, 1024:1152] = 1
        start = time.monotonic()
        self.open(b"P4\n%d %d\n" % (side, side) + numpy.packbits(rows).tobytes())
        first = time.monotonic() - start
        self.until(lambda: self.colour(1088, 1088) == OBSTACLE)
        took = []
        for step in range(20):
            start = time.monotonic()
            answer = self.viewed.ask("GET", f"/at?metric=euclid2&x={200 * step + 100}&y=1000")
            took.append(time.monotonic() - start)
            self.assertEqual(answer[0], 200)
        self.to(100, 1000).perform()
        self.until(lambda: "from the obstacle at" in self.text("point"))
        said = f"the first picture of {side} by {side} cells came {first:.2f} s after the server"
        print(f"{said} was started, and an answer to pointing within {1000 * max(took):.0f} ms")
        self.assertLess(first, 15)
        self.assertLess(max(took), 0.5)

    def test_pointing(self):
        self.open()
        for cell, said in (
            ((5, 3), "cell 5, 3: 3.61 cells from the obstacle at 2, 1"),
            ((2, 2), "cell 2, 2: 1.00 cells from the obstacle at 2, 1"),
            ((2, 1), "cell 2, 1: in an obstacle"),
        ):
            self.to(*cell).perform()
            self.until(lambda: self.text("point") == said)

    def test_a_map_without_obstacles(self):
        """All of it is beyond the scale, by each metric."""
        self.open(b"P1\n6 4\n000000\n000000\n000000\n000000\n")
        for name in ("chess", "city", "euclid2"):
            Select(self.driver.find_element(By.ID, "metric")).select_by_value(name)
            self.until(lambda: self.colour(5, 3) == [249, 246, 179, 255])
        self.to(5, 3).perform()
        self.until(lambda: self.text("point") == "cell 5, 3: the map has no obstacle")
        self.mode("path")
        self.to(5, 3).click().perform()
        self.until(lambda: self.text("path") == "the map has no obstacle")

    def test_zoom_and_pan(self):
        """By keys, also right after a click on a mode or a zoom button, and by the pointer."""
        self.open()
        before, left = self.middle(2, 1), webdriver.Keys.ARROW_LEFT
        self.mode("path")
        for key, check in (
            ("+", lambda now: now != before),
            ("0", lambda now: now == before),
            ("-", lambda now: now != before),
            ("0", lambda now: now == before),
            (left, lambda now: now[0] > before[0] and now[1] == before[1]),
            ("0", lambda now: now == before),
        ):
            self.press_key(key)
            self.assertTrue(check(self.middle(2, 1)), key)
        for key, moves in (("+", True), ("0", False)):
            self.driver.find_element(By.CSS_SELECTOR, f"#zoom [data-key='{key}']").click()
            self.assertEqual(self.middle(2, 1) != before, moves)
        marks = self.driver.find_element(By.ID, "marks")
        origin = webdriver.common.actions.wheel_input.ScrollOrigin.from_element(marks)
        ActionChains(self.driver).scroll_from_origin(origin, 0, -300).perform()
        self.until(lambda: self.middle(2, 1) != before)
        self.press_key("0")
        self.press_key("m")
        dragged = self.to(0, 0).click_and_hold()
        self.to(3, 2, dragged).release().perform()
        self.until(lambda: self.middle(2, 1)[0] > before[0])

    def test_a_map_of_one_row(self):
        """It stays in sight where one goes nearer, by keys or by the wheel far from it."""
        self.open(b"P1\n4096 1\n" + b"1" * 4096)
        marks = self.driver.find_element(By.ID, "marks")
        origin = webdriver.common.actions.wheel_input.ScrollOrigin.from_element(marks, 0, -200)
        wheel = ActionChains(self.driver).scroll_from_origin(origin, 0, -4000)
        for nearer in (lambda: [self.press_key("+") for _ in range(20)], wheel.perform):
            self.press_key("0")
            far = self.middle(2048, 0)
            nearer()
            self.until(lambda: self.middle(2048, 0) != far)
            (left, row), (right, _) = self.middle(0, 0), self.middle(4095, 0)
            self.assertTrue(0 < row < marks.size["height"], row)
            seen = round((300 - left) / (right - left) * 4095)
            self.until(lambda: self.colour(seen, 0) == OBSTACLE)

    def test_modes_have_keys(self):
        self.open()
        for key, name in (("p", "path"), ("b", "paint"), ("e", "clear"), ("m", "look")):
            self.press_key(key)
            chosen = self.driver.find_elements(By.CSS_SELECTOR, "[data-mode][aria-pressed=true]")
            self.assertEqual([it.get_attribute("data-mode") for it in chosen], [name])
        field = self.driver.find_element(By.ID, "radius")
        field.send_keys("p0")
        self.assertTrue(field.get_attribute("value").endswith("p0"))  # a field's keys are its own
        chosen = self.driver.find_element(By.CSS_SELECTOR, "[data-mode][aria-pressed=true]")
        self.assertEqual(chosen.get_attribute("data-mode"), "look")

    def test_path(self):
        self.open()
        self.mode("path")
        self.set_radius("")
        for cell in ((0, 0), (5, 0), (5, 3)):
            self.to(*cell).click().perform()
        self.until(lambda: self.text("path") == "tightest at cell 2, 0: 1.00 cells")
        for radius, name in (("1.5", "near"), ("", ""), ("0.1", "near")):
            self.set_radius(radius)
            self.until(lambda: self.name("path") == name)
        self.driver.find_element(By.ID, "forget").click()
        self.until(lambda: self.text("path").startswith("No points yet"))
        self.to(5, 3).click().perform()
        self.until(lambda: self.name("path") == "clear")
        self.to(2, 1).click().perform()
        self.until(lambda: "in an obstacle; may not fit (safe rule); exactly: it hits" in self.text("path"))
        self.press_key(webdriver.Keys.BACKSPACE)
        self.until(lambda: self.name("path") == "clear")

    def test_a_link_keeps_view_and_path(self):
        self.open()
        self.mode("path")
        for cell in ((0, 0), (5, 0)):
            self.to(*cell).click().perform()
        self.set_radius("0.2")
        self.driver.find_element(By.ID, "marks").send_keys("+")
        self.until(lambda: "zoom=" in self.driver.current_url and "0.2" in self.driver.current_url)
        time.sleep(0.5)
        link, place, said = self.driver.current_url, self.middle(2, 1), self.text("path")
        self.driver.get("about:blank")
        self.driver.get(link)
        self.until(lambda: self.text("path") == said)
        for now, then in zip(self.middle(2, 1), place):
            self.assertAlmostEqual(now, then, delta=1)
        self.driver.get("about:blank")
        self.driver.get(link.replace("map=6x4", "map=60x40"))
        self.until(lambda: "isn't followed" in self.text("said"))
        self.assertTrue(self.text("path").startswith("No points yet"))
        self.driver.get("about:blank")
        self.driver.get(link.replace("unit=cells", "unit=m"))
        self.until(lambda: self.text("version") == "version 0")
        radius = self.driver.find_element(By.ID, "radius").get_attribute("value")
        self.assertEqual(radius, "5")  # as without a link: metres aren't taken for cells

    def test_paint_and_publish(self):
        self.open(POST, "--versions", "2")
        keeping = self.enterContext(clearmap.Client(self.served.port))
        with clearmap.Client(self.served.port) as other:
            kept = keeping.pin()
            self.mode("paint")
            dragged = self.to(4, 2).click_and_hold()
            self.to(5, 3, dragged).release().perform()
            self.said("4 cells of the draft painted, place 1 of the log.")
            self.mode("clear")
            self.to(4, 2).click().perform()
            self.said("1 cell of the draft cleared, place 2 of the log.")
            self.until(lambda: self.button("publish").text == "Publish 2 changes")
            with other.pin() as pinned:
                self.assertEqual(pinned.dump(), POST)
            self.press("publish")
            self.said("Published as version 1.")
            with other.pin() as pinned:
                published = b"P1\n6 4\n000000\n001000\n000001\n000011\n"
                self.assertEqual((pinned.version, pinned.dump()), (1, published))
            self.until(lambda: self.text("version") == "version 1")
            self.until(lambda: self.colour(5, 3) == OBSTACLE)
            self.until(lambda: self.button("publish").text == "Publish")
            self.press("publish")
            self.said("Refused: as many versions are kept as may be")
            kept.unpin()
            self.press("collect")
            self.said("Collected: 1 is the least version that is kept")
            self.press("revert")
            self.until(lambda: alert_is_present()(self.driver)).accept()
            self.said("The draft is the newest version again, place 7 of the log.")
            self.press("checkpoint")
            self.said("The log's entries are dropped, place 8.")

    def said(self, text):
        """Waits for news, which are seen without scrolling."""
        self.until(lambda: self.text("said").startswith(text))
        box = self.driver.execute_script(
            "const box = document.getElementById('said').getBoundingClientRect();"
            "return box.top >= 0 && box.bottom <= innerHeight"
        )
        self.assertTrue(box)

    def test_a_publish_by_another(self):
        self.open()
        with clearmap.Client(self.served.port) as other:
            other.paint(0, 3, 1, 4)
            other.publish()
            start = time.time()
            self.until(lambda: self.text("version") == "version 1")
            spent = time.time() - start
            print(f"a publish by another client is on the page after {spent:.2f} s")
            self.until(lambda: self.colour(0, 3) == OBSTACLE)

    def test_read_only(self):
        self.open(view=["--read-only"])
        changes = self.driver.find_elements(By.CLASS_NAME, "changes")
        self.assertFalse(any(part.is_displayed() for part in changes))
        self.press_key("b")
        chosen = self.driver.find_element(By.CSS_SELECTOR, "[data-mode][aria-pressed=true]")
        self.assertEqual(chosen.get_attribute("data-mode"), "look")


if __name__ == "__main__":
    sys.exit(unittest.main())
