#!/usr/bin/env python3
"""Tests of the field by which clearmap-view's page goes to a place. CLEARMAP names the built
program."""
import pathlib
import random
import sys
import tempfile
import unittest

from testing import YAML, By, InBrowser

import clearmap

WIDTH, HEIGHT = 60, 40


class Jump(InBrowser):
    def go(self, text):
        """Enters a place."""
        field = self.driver.find_element(By.ID, "place")
        field.clear()
        field.send_keys(text + "\n")
        return field

    def show(self, resolution):
        """A map in metres; its frame."""
        folder = pathlib.Path(self.enterContext(tempfile.TemporaryDirectory()))
        (folder / "map.yaml").write_text(YAML.replace("0.5\n", f"{resolution}\n", 1))
        cells = b"\xfe" * (WIDTH * HEIGHT)
        (folder / "map.pgm").write_bytes(b"P5\n%d %d\n255\n" % (WIDTH, HEIGHT) + cells)
        image = b"P4\n%d %d\n" % (WIDTH, HEIGHT) + b"\x80" + bytes(WIDTH // 8 * HEIGHT + HEIGHT - 1)
        self.open(image, view=["--map", str(folder / "map.yaml")])
        return clearmap.Frame(WIDTH, HEIGHT, resolution, "-1", "-2")

    def is_aimed_at(self, *cell):
        """Waits until a cell is told that is in the middle of the map."""
        self.until(lambda: self.text("point").startswith("cell %d, %d" % cell))
        size = self.driver.find_element(By.ID, "marks").size
        middle = size["width"] / 2, size["height"] / 2
        for at, wanted in zip(self.middle(*cell), middle):
            self.assertAlmostEqual(at, wanted, delta=1)

    def test_metres(self):
        """The cell is the one that a frame has for the same decimals, on borders of cells too."""
        frame = self.show("0.05")
        field = self.driver.find_element(By.ID, "place")
        self.assertEqual(field.get_attribute("placeholder"), "x, y in m")
        self.go("0.5, -1.025")
        self.is_aimed_at(*frame.cell(("0.5", "-1.025")))
        chance = random.Random(48)
        for _ in range(200):
            x = f"{chance.randrange(100 * WIDTH) / 2000 - 1:.4f}"
            y = f"{chance.randrange(100 * HEIGHT) / 2000 - 2:.4f}"
            script = """const [x, y, done] = arguments;
            Promise.all([import("/places.js"), import("/rulers.js")]).then(([it, { Frame }]) =>
              done(it.cellOf(
                new Frame({ resolution: 0.05, origin: [-1, -2], height: 40 }), x, y)))"""
            cell = self.driver.execute_async_script(script, float(x), float(y))
            self.assertEqual((cell["x"], cell["y"]), frame.cell((x, y)), (x, y))

    def test_bad_words(self):
        """Each gets an answer at the field, until it is changed; the map stays."""
        self.show("0.05")
        before = self.middle(0, 0)
        for text, said in (
            ("here", "'here' is no place: that is x and y in metres, as 1.5, -0.4."),
            ("1", "'1' is no place: that is x and y in metres, as 1.5, -0.4."),
            ("1,5, 2", "'1,5, 2' is no place: that is x and y in metres, as 1.5, -0.4."),
            ("9, -1.5", "9, -1.5 is off the map: x is from -1 to 2 m, y from -2 to 0."),
            ("0, 0", "0, 0 is off the map: x is from -1 to 2 m, y from -2 to 0."),
        ):
            field = self.go(text)
            self.until(lambda: self.text("astray") == said)
            self.assertEqual(field.get_attribute("aria-invalid"), "true")
        self.assertEqual(self.middle(0, 0), before)
        field.send_keys("1")
        self.until(lambda: self.text("astray") == "")
        self.assertEqual(field.get_attribute("aria-invalid"), "false")

    def test_cells(self):
        self.open()
        self.go("5 3")
        self.is_aimed_at(5, 3)
        self.go("(0, 2)")
        self.is_aimed_at(0, 2)
        self.go("6, 0")
        said = "6, 0 is off the map: x is from 0 to 6, y from 0 to 4."
        self.until(lambda: self.text("astray") == said)


if __name__ == "__main__":
    sys.exit(unittest.main())
