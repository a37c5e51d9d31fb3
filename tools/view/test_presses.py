#!/usr/bin/env python3
"""Tests of presses on the map of clearmap-view's page that something comes between: keys, and a
server that ends. CLEARMAP names the built program."""
import io
import sys
import unittest

from testing import POST, ActionChains, By, InBrowser, webdriver

import clearmap
from served import Served

MAPS = b"P1\n3 2\n000\n001\n"  # of another size than the first one


class Presses(InBrowser):
    def hold(self, name, *cells):
        """Presses the button at the first of these cells, and goes to the others."""
        self.mode(name)
        actions = self.to(*cells[0]).click_and_hold()
        for cell in cells[1:]:
            actions = self.to(*cell, actions)
        actions.perform()

    def release(self, *cell):
        """Goes to a cell, and lets the button go."""
        self.to(*cell).release().perform()

    def press_key(self, key):
        ActionChains(self.driver).send_keys(key).perform()

    def modes(self):
        """What the pointer does now."""
        chosen = self.driver.find_elements(By.CSS_SELECTOR, "[data-mode][aria-pressed=true]")
        return [it.get_attribute("data-mode") for it in chosen]

    def place(self):
        """Where the obstacle is on the canvas, once the page has its size."""
        self.driver.execute_async_script(
            "requestAnimationFrame(() => requestAnimationFrame(() => setTimeout(arguments[0], 30)))"
        )
        return self.middle(2, 1)

    def assert_nothing_was_given(self):
        """The next command of any client is the first."""
        with clearmap.Client(self.served.port) as other:
            self.assertEqual(other.revert(), 1)

    def again(self, image):
        """Another server on the port of the one that ended."""
        self.served.process.stdout = io.BytesIO()
        self.served = Served(image, port=self.served.port)
        self.addCleanup(self.served.end)

    def test_the_server_ends_in_a_drag(self):
        """The rectangle is dropped, and the pointer does nothing until the next press."""
        self.open()
        self.hold("paint", (3, 2), (4, 3))
        self.served.end()
        self.until(lambda: "can't be asked" in self.text("server"))
        before = self.place()  # under the strip that tells of the lost server
        self.to(5, 0).perform()
        self.assertEqual((self.place(), self.modes()), (before, ["look"]))
        self.again(POST)
        self.until(lambda: self.button("publish").is_enabled())
        before = self.place()
        self.release(0, 3)
        self.assertEqual(self.place(), before)
        self.assert_nothing_was_given()

    def test_another_map_in_a_drag(self):
        """A rectangle that was begun on one map isn't drawn on another."""
        self.open()
        self.hold("paint", (0, 0), (1, 1))
        self.served.end()
        self.again(MAPS)
        self.until(lambda: self.text("server").endswith("3 by 2 cells"))
        self.release(2, 1)
        self.assert_nothing_was_given()

    def test_keys_in_a_drag_that_moves_the_map(self):
        """They do nothing before its end, which is off the map."""
        self.open()
        before = self.middle(2, 1)
        self.hold("look", (1, 1), (2, 1))
        self.press_key("b")
        self.assertEqual(self.modes(), ["look"])
        self.to(5, 3).move_by_offset(130, 0).release().perform()
        self.assertNotEqual(self.middle(2, 1), before)
        self.assert_nothing_was_given()
        self.press_key("b")
        self.assertEqual(self.modes(), ["paint"])

    def test_keys_in_a_drag_of_a_rectangle(self):
        """Neither the map nor the mode changes under it."""
        self.open()
        before = self.middle(2, 1)
        self.hold("paint", (4, 2), (5, 3))
        for key in ("+", "0", "m", "e", webdriver.Keys.ARROW_LEFT, webdriver.Keys.BACKSPACE):
            self.press_key(key)
        self.assertEqual((self.middle(2, 1), self.modes()), (before, ["paint"]))
        self.release(5, 3)
        said = "4 cells of the draft painted, place 1 of the log."
        self.until(lambda: self.text("said") == said)

    def test_a_drag_whose_end_is_not_heard_of(self):
        """It does nothing more, and the keys are back."""
        self.open()
        self.hold("paint", (4, 2), (5, 3))
        self.driver.execute_script(
            "const known = { isPrimary: true, pointerType: 'mouse', buttons: 0 };"
            "document.getElementById('marks').dispatchEvent(new PointerEvent('pointermove', known))"
        )
        self.press_key("m")
        self.assertEqual(self.modes(), ["look"])
        self.release(5, 3)
        self.assert_nothing_was_given()

    def test_escape_in_a_drag(self):
        """It drops the rectangle, and the rest of the drag does nothing."""
        self.open()
        before = self.middle(2, 1)
        self.hold("paint", (4, 2), (5, 3))
        self.press_key(webdriver.Keys.ESCAPE)
        self.release(3, 0)
        self.assertEqual((self.middle(2, 1), self.modes()), (before, ["paint"]))
        self.assert_nothing_was_given()


if __name__ == "__main__":
    sys.exit(unittest.main())
