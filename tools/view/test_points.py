#!/usr/bin/env python3
"""Tests of the points of a path on clearmap-view's page: they are moved, and taken away one by one.
CLEARMAP names the built program."""
import sys
import time
import unittest

from testing import ActionChains, By, InBrowser, webdriver

KEYS = webdriver and webdriver.Keys


class Points(InBrowser):
    def walk(self, *cells):
        """Clicks a path."""
        self.open(view=["--radius", "0.1"])
        self.mode("path")
        for cell in cells:
            self.to(*cell).click().perform()
        self.is_path(*cells)

    def is_path(self, *cells):
        """Waits until the path has these points, by the page's address."""
        words = "path=" + ";".join("%d,%d" % cell for cell in cells)
        has = lambda: (self.driver.current_url + "&").count(words + "&") == 1
        self.until(has if cells else lambda: "path=" not in self.driver.current_url)

    def with_key(self, key, *cell):
        """A click on a cell while a key is held."""
        actions = ActionChains(self.driver, duration=20).key_down(key)
        self.to(*cell, actions).click().key_up(key).perform()

    def test_a_point_is_dragged(self):
        """It moves, and neither the map nor another point does; the path is asked about again."""
        self.walk((0, 0), (5, 0), (5, 3))
        before = self.middle(2, 1)
        self.to(5, 2, self.to(5, 0).click_and_hold()).release().perform()
        self.is_path((0, 0), (5, 2), (5, 3))
        self.assertEqual(self.middle(2, 1), before)
        self.until(lambda: self.text("path").startswith("tightest at cell 2, 1: in an obstacle"))
        self.to(3, 3, self.to(1, 3).click_and_hold()).release().perform()  # at no point: the map
        self.assertNotEqual(self.middle(2, 1), before)

    def test_escape_in_a_drag(self):
        self.walk((0, 0), (5, 0))
        self.to(5, 2, self.to(5, 0).click_and_hold()).perform()
        ActionChains(self.driver).send_keys(KEYS.ESCAPE).perform()
        self.to(5, 3).release().perform()
        time.sleep(0.4)
        self.is_path((0, 0), (5, 0))

    def test_points_are_taken_away(self):
        """By a click with Shift or Alt, and by Delete where it is pointed at, in this mode alone; a
        click without them adds one."""
        self.walk((0, 0), (5, 0), (5, 3), (0, 3), (3, 3))
        self.assertIn("takes it away", self.text("how"))
        title = self.driver.find_element(By.CSS_SELECTOR, "[data-mode=path]")
        self.assertIn("Shift or Alt", title.get_attribute("title"))
        self.with_key(KEYS.SHIFT, 5, 0)
        self.is_path((0, 0), (5, 3), (0, 3), (3, 3))
        self.with_key(KEYS.ALT, 0, 0)
        self.is_path((5, 3), (0, 3), (3, 3))
        self.to(0, 3).perform()
        ActionChains(self.driver).send_keys(KEYS.DELETE).perform()
        self.is_path((5, 3), (3, 3))
        ActionChains(self.driver).send_keys(KEYS.DELETE).perform()  # there is none any more
        self.with_key(KEYS.SHIFT, 1, 1)
        self.is_path((5, 3), (3, 3), (1, 1))
        self.mode("look")
        self.to(1, 1).perform()
        ActionChains(self.driver).send_keys(KEYS.DELETE).perform()
        self.mode("path")
        self.to(5, 3).click().perform()
        self.is_path((5, 3), (3, 3), (1, 1), (5, 3))

    def test_a_long_press(self):
        """On a phone it takes a point away; a short one adds one."""
        self.walk((0, 0), (5, 0))
        marks = self.driver.find_element(By.ID, "marks").rect
        touch = lambda kind, *points: self.driver.execute_cdp_cmd(
            "Input.dispatchTouchEvent", {"type": kind, "touchPoints": list(points)}
        )
        x, y = self.middle(5, 0)
        finger = {"x": marks["x"] + x, "y": marks["y"] + y}
        touch("touchStart", finger)
        self.is_path((0, 0))
        touch("touchEnd")
        touch("touchStart", finger)
        touch("touchEnd")
        self.is_path((0, 0), (5, 0))


if __name__ == "__main__":
    sys.exit(unittest.main())
