#!/usr/bin/env python3
"""Tests of the button of clearmap-view's page that publishes: it is always seen, and stands out
where something waits. CLEARMAP names the built program."""
import sys
import unittest

from testing import InBrowser


class Publish(InBrowser):
    def paint(self, cell, publish):
        """Paints a cell, after which the button to publish says this."""
        self.mode("paint")
        self.to(*cell).click().perform()
        self.until(lambda: self.button("publish").text == publish)

    def test_publish_is_seen(self):
        """In a window of 800 pixels without scrolling, and a long answer doesn't move it."""
        self.open()
        metrics = {"width": 1100, "height": 800, "deviceScaleFactor": 1, "mobile": False}
        self.driver.execute_cdp_cmd("Emulation.setDeviceMetricsOverride", metrics)
        self.addCleanup(self.driver.execute_cdp_cmd, "Emulation.clearDeviceMetricsOverride", {})
        for lines in (1, 20):
            self.driver.execute_script(
                "document.getElementById('path').innerText = 'line\\n'.repeat(arguments[0])", lines
            )
            seen = self.driver.execute_script(
                "const box = document.querySelector('[data-command=publish]')"
                ".getBoundingClientRect();"
                "return document.elementFromPoint(box.left + 9, box.bottom - 2)?.textContent"
            )
            self.assertEqual(seen, "Publish", lines)

    def test_publish_stands_out_only_where_something_waits(self):
        self.open()
        colour = lambda name: self.button(name).value_of_css_property("background-color")
        self.assertEqual(colour("publish"), colour("revert"))
        self.paint((5, 2), "Publish 1 change")
        self.assertNotEqual(colour("publish"), colour("revert"))
        self.press("publish")
        self.until(lambda: self.button("publish").text == "Publish")
        self.assertEqual(colour("publish"), colour("revert"))


if __name__ == "__main__":
    sys.exit(unittest.main())
