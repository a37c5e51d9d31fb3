#!/usr/bin/env python3
"""Tests of clearmap-view's page on a phone: fingers, hints, and labels on a narrow map. CLEARMAP
names the built program."""
import sys
import unittest

from testing import By, InBrowser

SIZE = {"width": 390, "height": 800, "deviceScaleFactor": 1, "mobile": True}


class Phone(InBrowser):
    def setUp(self):
        self.emulate("setDeviceMetricsOverride", **SIZE)
        self.emulate("setTouchEmulationEnabled", enabled=True, maxTouchPoints=2)
        self.addCleanup(self.emulate, "setTouchEmulationEnabled", enabled=False)
        self.addCleanup(self.emulate, "clearDeviceMetricsOverride")

    def emulate(self, name, **words):
        self.driver.execute_cdp_cmd(f"Emulation.{name}", words)

    def touch(self, kind, *places):
        """Fingers at these places of the window."""
        points = [{"x": x, "y": y, "id": k} for k, (x, y) in enumerate(places)]
        words = {"type": kind, "touchPoints": points}
        self.driver.execute_cdp_cmd("Input.dispatchTouchEvent", words)

    def tap(self, x, y):
        """A finger taps a cell."""
        self.touch("touchStart", self.middle(x, y))
        self.touch("touchEnd")

    def test_hints(self):
        """Nothing is told of keys, which a phone doesn't have."""
        self.open()
        self.assertEqual(self.text("point"), "Tap a cell.")
        self.assertEqual(self.text("path"), "No points yet: choose Path, and tap the map.")
        marks = self.driver.find_element(By.ID, "marks")
        self.assertNotIn("Shift", marks.get_attribute("aria-label"))
        keys = self.driver.find_elements(By.TAG_NAME, "kbd")
        self.assertFalse(any(it.is_displayed() for it in keys))
        self.tap(5, 3)
        self.until(lambda: self.text("point").startswith("cell 5, 3"))

    def test_two_fingers(self):
        """Spread they zoom, and the place between them stays there; together they move the map, and
        draw nothing."""
        self.open()
        self.mode("paint")
        before = [self.middle(0, 0), self.middle(5, 0)]
        self.touch("touchStart", (150, 200))
        self.touch("touchStart", (150, 200), (250, 200))
        for apart in (60, 70, 80, 90, 100):
            self.touch("touchMove", (200 - apart, 200), (200 + apart, 200))
        wide = lambda ends: ends[1][0] - ends[0][0]
        ends = lambda: [self.middle(0, 0), self.middle(5, 0)]
        self.until(lambda: abs(wide(ends()) / wide(before) - 2) < 0.02)
        self.assertAlmostEqual(ends()[0][0] - 200, 2 * (before[0][0] - 200), delta=2)
        then = ends()
        self.touch("touchMove", (120, 230), (320, 230))
        self.until(lambda: abs(ends()[0][0] - then[0][0] - 20) < 1)
        self.assertAlmostEqual(ends()[0][1] - then[0][1], 30, delta=1)
        self.touch("touchEnd")
        self.assertTrue(self.text("draft").startswith("Nothing changed from here."))
        self.mode("look")
        then = self.middle(0, 0)  # one finger goes on as before
        self.touch("touchStart", (200, 200))
        for x in (210, 220, 230):
            self.touch("touchMove", (x, 200))
        self.touch("touchEnd")
        self.until(lambda: self.middle(0, 0)[0] > then[0] + 10)

    def test_labels_are_short(self):
        """None covers a third of the map's width."""
        self.open()
        said = self.driver.execute_async_script(
            """const done = arguments[0];
            import("/labels.js").then(({ label, lengthSaid }) => {
              const context = document.getElementById("marks").getContext("2d");
              const sight = { width: 390, height: 400 };
              done(["7.28 cells, 0.364 m", "0.300 of 0.292 m", "in an obstacle"].map(
                (length) => label(context, sight, [200, 200], lengthSaid(sight, length, 12))));
            });"""
        )
        texts = ["0.364 m (v12)", "0.300 m (v12)", "obstacle (v12)"]
        self.assertEqual([it["text"] for it in said], texts)
        for box in said:
            self.assertLess(box["width"], 130, box)


if __name__ == "__main__":
    sys.exit(unittest.main())
