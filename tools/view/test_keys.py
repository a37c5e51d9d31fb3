#!/usr/bin/env python3
"""Tests of clearmap-view's page without a pointer: the map by the keyboard alone. CLEARMAP names
the built program."""
import sys
import unittest

from testing import ActionChains, By, InBrowser, webdriver

import clearmap

KEYS = webdriver and webdriver.Keys
FRAME = [255, 255, 255, 255]


class Keyboard(InBrowser):
    def press_key(self, *keys):
        """Presses keys, wherever the focus is."""
        ActionChains(self.driver).send_keys(*keys).perform()

    def aim(self, *arrows):
        """Shift and arrows."""
        actions = ActionChains(self.driver).key_down(KEYS.SHIFT)
        actions.send_keys(*arrows).key_up(KEYS.SHIFT).perform()

    def focus(self):
        """Goes to the map by the tabulator."""
        self.driver.find_element(By.TAG_NAME, "body").send_keys(KEYS.TAB)
        self.assertEqual(self.driver.switch_to.active_element.get_attribute("id"), "marks")

    def mark(self, px, py):
        """The colour of the marks at a pixel, once they are drawn."""
        return self.driver.execute_async_script(
            """const [x, y, done] = arguments;
            const context = document.getElementById("marks").getContext("2d");
            requestAnimationFrame(() => setTimeout(() =>
              done(Array.from(context.getImageData(x, y, 1, 1).data)), 30));""",
            round(px), round(py),
        )  # fmt: skip

    def told(self):
        """The cell that is told."""
        x, y = self.text("point").split(":")[0].split()[1:]
        return int(x.strip(",")), int(y)

    def pointed(self, said):
        self.until(lambda: self.text("point").startswith(said))

    def test_the_focus_is_seen(self):
        """On the map as on a button, and not after a click. Then what the keys do is said."""
        self.open()
        marks = self.driver.find_element(By.ID, "marks")
        outline = lambda: marks.value_of_css_property("outline-style")
        self.to(5, 3).click().perform()
        self.assertEqual(outline(), "none")
        self.driver.refresh()
        self.until(lambda: self.text("version") == "version 0")
        marks = self.driver.find_element(By.ID, "marks")
        self.assertEqual((outline(), self.text("said")), ("none", ""))
        self.focus()
        self.assertEqual(outline(), "solid")
        frame = "return getComputedStyle(document.getElementById('map'), '::after').borderTopStyle"
        self.assertEqual(self.driver.execute_script(frame), "solid")
        self.until(lambda: self.text("said").startswith("Shift and an arrow aim at a cell"))

    def test_aiming(self):
        """From the cell in the middle on, one cell at a time, up to the map's border; the cell that
        is aimed at has a frame."""
        self.open()
        self.focus()
        self.aim(KEYS.ARROW_RIGHT)
        self.pointed("cell 3, 2: 1.41 cells from the obstacle at 2, 1")
        left, top = self.driver.execute_script("return clearmapView.pixel(3, 2)")
        self.assertEqual(self.mark(left, top + 20), FRAME)
        self.aim(KEYS.ARROW_UP, KEYS.ARROW_LEFT)
        self.pointed("cell 2, 1: in an obstacle")
        self.assertNotEqual(self.mark(left, top + 20), FRAME)
        self.aim(*[KEYS.ARROW_DOWN] * 9)
        self.pointed("cell 2, 3: 2.00 cells")
        before = self.middle(2, 1)
        self.press_key(KEYS.ARROW_LEFT)  # without Shift the map is moved
        self.assertGreater(self.middle(2, 1)[0], before[0])

    def test_the_aim_stays_in_sight(self):
        """The map goes along, and where a cell is less than a pixel, the aim goes farther."""
        self.open(b"P4\n4096 16\n" + bytes(4096 * 2))
        self.focus()
        marks = self.driver.find_element(By.ID, "marks")
        self.aim(KEYS.ARROW_RIGHT)
        self.until(lambda: self.text("point").startswith("cell "))
        first, _ = self.told()
        self.aim(KEYS.ARROW_RIGHT)
        self.until(lambda: self.told()[0] > first + 10)
        far = self.told()
        self.press_key(*"+" * 20)
        self.aim(KEYS.ARROW_RIGHT)  # from the middle, as the cell is off the window
        self.until(lambda: self.told() != far)
        x, y = self.told()
        self.aim(*[KEYS.ARROW_RIGHT] * 12)
        self.until(lambda: self.told() == (x + 12, y))
        px, py = self.middle(x + 12, y)
        self.assertTrue(0 < px < marks.size["width"] and 0 < py < marks.size["height"], (px, py))

    def test_a_path(self):
        self.open()
        self.focus()
        self.press_key("p")
        self.aim(KEYS.ARROW_DOWN)
        self.press_key(KEYS.ENTER)
        self.aim(KEYS.ARROW_RIGHT, KEYS.ARROW_RIGHT, KEYS.ARROW_RIGHT)
        self.press_key(" ")
        self.until(lambda: self.text("long") == "2 points, 3.00 cells long")
        self.until(lambda: self.text("path").startswith("tightest at cell 2, 3: 2.00 of"))
        self.press_key(KEYS.BACKSPACE)
        self.until(lambda: self.text("long") == "1 point, 0.00 cells long")

    def test_a_rectangle(self):
        """Enter begins and ends it; Escape, another mode and the pointer drop it."""
        self.open()
        self.focus()
        self.aim(KEYS.ARROW_RIGHT)
        for key in (KEYS.ESCAPE, "m"):
            self.press_key("b", KEYS.ENTER)
            self.until(lambda: self.text("said").startswith("Shift and an arrow go on"))
            self.aim(KEYS.ARROW_RIGHT)
            self.press_key(key, "b")
        self.press_key("e", KEYS.ENTER)
        self.mode("paint")
        self.to(0, 3).click().perform()
        self.until(lambda: self.text("said") == "1 cell of the draft painted, place 1 of the log.")
        self.aim(KEYS.ARROW_UP)
        self.press_key(KEYS.ENTER)
        self.aim(KEYS.ARROW_RIGHT, KEYS.ARROW_UP)
        self.press_key(KEYS.ENTER)
        self.until(lambda: self.text("said") == "4 cells of the draft painted, place 2 of the log.")
        with clearmap.Client(self.served.port) as other:
            other.publish()
            with other.pin() as pinned:
                self.assertEqual(pinned.dump(), b"P1\n6 4\n000000\n111000\n110000\n100000\n")


if __name__ == "__main__":
    sys.exit(unittest.main())
