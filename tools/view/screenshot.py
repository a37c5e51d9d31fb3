#!/usr/bin/env python3
"""Writes the four pictures of the page that docs/images/ has, in headless Chromium: of the map
examples/house.yaml, and of one of 4096 by 4096 cells. CLEARMAP names the built program; python3-pil
makes the files small.

    CLEARMAP=crates/clearmap/out/clearmap tools/view/screenshot.py [FOLDER]
"""
import io
import pathlib
import sys
import unittest

import testing as tests
from selenium.webdriver.common.by import By

import clearmap_ros as ros
import numpy
from PIL import Image

TOP = tests.HERE.parent.parent
FOLDER = pathlib.Path(sys.argv[1]) if len(sys.argv) > 1 else TOP / "docs" / "images"
HOUSE = TOP / "examples" / "house.yaml"
COLOURS = 255  # of a file
WINDOW = 1100, 860  # with the bars of the window
WAY = ((40, 70), (122, 73), (126, 108), (188, 112), (199, 90), (200, 69), (222, 69), (228, 82))
OUT = ((40, 70), (122, 73), (126, 108), (161, 122), (162, 140), (166, 188))
SIDE = 4096


def campus():
    """A map of many rooms, with walls of one cell, as a raw image."""
    random = numpy.random.default_rng(48)
    cells = numpy.zeros((SIDE, SIDE), bool)
    cells[[0, -1]] = cells[:, [0, -1]] = True
    for _ in range(260):
        width, height = random.integers(60, 420, 2)
        x, y = random.integers(0, SIDE - width), random.integers(0, SIDE - height)
        cells[y : y + height, [x, x + width - 1]] = cells[[y, y + height - 1], x : x + width] = True
        cells[y : y + height, x + width // 3 : x + width // 3 + 24] = False
    return b"P4\n%d %d\n" % (SIDE, SIDE) + numpy.packbits(cells).tobytes()


class Screenshots(tests.InBrowser):
    """Pages as the tests of the page have them."""

    def setUp(self):
        FOLDER.mkdir(exist_ok=True)
        self.driver.set_window_size(*WINDOW)
        self.scheme("light")

    def scheme(self, name):
        features = [{"name": "prefers-color-scheme", "value": name}]
        self.driver.execute_cdp_cmd("Emulation.setEmulatedMedia", {"features": features})

    def house(self, radius):
        """Shows the house to a robot of this radius."""
        known = ros.read_map(HOUSE)
        image = ros.pbm(ros.obstacles(known.image, known.settings))
        self.open(image, view=["--map", str(HOUSE), "--radius", radius])

    def walk(self, cells):
        """Clicks a path."""
        self.mode("path")
        for cell in cells:
            self.to(*cell).click().perform()

    def zoom(self, *cell, steps=1):
        """Goes nearer to a cell."""
        marks = self.driver.find_element(By.ID, "marks")
        px, py = self.middle(*cell)
        for _ in range(steps):
            self.driver.execute_script(
                "arguments[0].dispatchEvent(new WheelEvent('wheel',"
                "{ deltaY: -300, clientX: arguments[1], clientY: arguments[2] }))",
                marks, px, py,
            )  # fmt: skip

    def save(self, name):
        """Writes a picture of the page, in few colours."""
        self.driver.execute_async_script("setTimeout(arguments[0], 300)")
        shot = Image.open(io.BytesIO(self.driver.get_screenshot_as_png())).convert("RGB")
        small = shot.quantize(COLOURS, method=Image.Quantize.MAXCOVERAGE, dither=Image.Dither.NONE)
        small.save(FOLDER / f"view-{name}.png", optimize=True)

    def test_path(self):
        self.house("0.22")
        self.walk([*WAY, (280, 88)])
        self.to(80, 140).perform()
        self.until(lambda: "has room" in self.text("path") and "obstacle at" in self.text("point"))
        self.save("path")

    def test_tight(self):
        self.house("0.4")
        self.walk(OUT)
        self.zoom(132, 96)
        self.to(150, 150).perform()
        self.until(lambda: "may not fit" in self.text("path") and "obstacle at" in self.text("point"))
        self.save("tight")

    def test_draft(self):
        self.scheme("dark")
        self.house("0.3")
        self.mode("paint")
        dragged = self.to(130, 112).click_and_hold()
        self.to(144, 122, dragged).release().perform()
        self.mode("clear")
        dragged = self.to(192, 24).click_and_hold()
        self.to(203, 53, dragged).release().perform()
        self.until(lambda: self.button("publish").text == "Publish 2 changes")
        self.save("draft")

    def test_far(self):
        self.open(campus(), view=["--radius", "12"])
        self.to(1500, 1500).perform()
        self.until(lambda: "obstacle at" in self.text("point"))
        self.save("far")


if __name__ == "__main__":
    suite = unittest.defaultTestLoader.loadTestsFromTestCase(Screenshots)
    sys.exit(0 if unittest.TextTestRunner().run(suite).wasSuccessful() else 1)
