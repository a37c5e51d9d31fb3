#!/usr/bin/env python3
"""Tests of how clearmap-view's page looks, by named pixels of screenshots in headless Chromium.
CLEARMAP names the built program; python3-pil reads the screenshots."""
import io
import pathlib
import sys
import tempfile
import unittest

from testing import YAML, By, InBrowser

import numpy

try:
    from PIL import Image
except ImportError:
    Image = None

WIDTH, HEIGHT = 60, 40
OBSTACLE, UNKNOWN = (16, 18, 24), (124, 128, 138)
HATCH = (38, 40, 47)
BEYOND = (249, 246, 179)  # the colour of the scale's end
CONTOUR, CONTOUR_EDGE = (255, 255, 255), (10, 16, 24)
NO_ROOM = (215, 25, 28)


def house():
    """A map's samples as map_saver writes them: walls around it, one in the middle with a door, and
    a corner that isn't known."""
    samples = numpy.full((HEIGHT, WIDTH), 254, numpy.uint8)
    samples[0] = samples[-1] = samples[:, 0] = samples[:, -1] = 0
    samples[:16, 30] = samples[24:, 30] = 0
    samples[30:39, 50:59] = 205
    return samples


def lightness(colour):
    """The lightness L* of a colour, from 0 to 100."""
    linear = [((c / 255 + 0.055) / 1.055) ** 2.4 if c > 10 else c / 255 / 12.92 for c in colour]
    luminance = numpy.dot(linear, (0.2126, 0.7152, 0.0722))
    return 116 * numpy.cbrt(luminance) - 16


def as_deuteranopes_see(colour):
    """A colour as it is seen without the cones for green (Machado and others, 2009)."""
    matrix = ((0.367, 0.861, -0.228), (0.280, 0.673, 0.047), (-0.012, 0.043, 0.969))
    return numpy.clip(numpy.dot(matrix, colour), 0, 255)


@unittest.skipIf(Image is None, "screenshots aren't read: install python3-pil")
class Look(InBrowser):
    def setUp(self):
        self.driver.execute_cdp_cmd("Emulation.setEmulatedMedia", {"features": []})
        self.driver.execute_cdp_cmd("Emulation.clearDeviceMetricsOverride", {})

    def show(self, samples, *words, yaml=YAML):
        """Serves a map of these samples, and shows it with its yaml."""
        height, width = samples.shape
        bits = numpy.packbits(samples < 254)
        if width % 8:
            bits = numpy.packbits(samples < 254, axis=1)
        folder = pathlib.Path(self.enterContext(tempfile.TemporaryDirectory()))
        (folder / "house.yaml").write_text(yaml)
        (folder / "map.pgm").write_bytes(b"P5\n%d %d\n255\n" % (width, height) + samples.tobytes())
        image = b"P4\n%d %d\n" % (width, height) + bits.tobytes()
        self.open(image, view=["--map", str(folder / "house.yaml"), *words])

    def shot(self):
        """The page's pixels, once it has drawn what it knows."""
        self.driver.execute_async_script(
            "const [done] = arguments;"
            "requestAnimationFrame(() => requestAnimationFrame(() => setTimeout(done, 30)))"
        )
        png = self.driver.get_screenshot_as_png()
        return numpy.asarray(Image.open(io.BytesIO(png)).convert("RGB")).astype(int)

    def pixel(self, shot, x, y, part=(0.5, 0.5)):
        """The pixel at a part of a cell."""
        place = "return window.clearmapView.pixel(arguments[0], arguments[1])"
        px, py = self.driver.execute_script(place, x + part[0], y + part[1])
        return tuple(shot[int(py), int(px)])

    def seen(self, path, call):
        """What a call of one of the page's modules answers."""
        script = f"const done = arguments[0]; import('/{path}').then((it) => done({call}))"
        return self.driver.execute_async_script(script)

    def choose(self, position):
        """Moves the slider of the scale's end."""
        self.driver.execute_script(
            "const slider = document.getElementById('position'); slider.value = arguments[0];"
            "slider.dispatchEvent(new Event('input'))",
            position,
        )

    def media(self, name, value):
        features = [{"name": name, "value": value}]
        self.driver.execute_cdp_cmd("Emulation.setEmulatedMedia", {"features": features})

    # ---- colours

    def test_the_scale_is_even(self):
        """From dark to light in even steps, for all eyes, and without red."""
        self.show(house())
        colours = self.seen("colours.js", "it.scaleColours(0)")
        steps = numpy.diff([lightness(colour) for colour in colours[::16]])
        self.assertGreater(steps.min(), 0.8 * steps.mean())
        self.assertLess(steps.max(), 1.2 * steps.mean())
        seen = [lightness(as_deuteranopes_see(colour)) for colour in colours[::16]]
        self.assertGreater(numpy.diff(seen).min(), 2)
        reddest = max(red - max(green, blue) for red, green, blue in colours)
        self.assertLess(reddest, 20)

    def test_cells(self):
        self.show(house(), "--radius", "1")  # of two cells: the scale ends at eight
        shot = self.shot()
        for name, cell, wanted in (
            ("the wall at the left", (0, 20), OBSTACLE),
            ("the wall in the middle", (30, 4), OBSTACLE),
            ("the middle of a room", (15, 20), BEYOND),
            ("8 cells from the wall", (8, 20), BEYOND),
        ):
            self.assertEqual(self.pixel(shot, *cell), wanted, name)
        row = [self.pixel(shot, x, 20, (0.5, 0.4)) for x in range(1, 8)]
        self.assertTrue((numpy.diff([lightness(colour) for colour in row]) > 3).all(), row)
        corner = shot[self.inside(52, 32, 57, 37)].reshape(-1, 3)
        found = {tuple(colour) for colour in corner}
        self.assertEqual(found, {UNKNOWN, HATCH})

    def inside(self, x0, y0, x1, y1):
        """The pixels of a rectangle of cells."""
        place = "return window.clearmapView.pixel(arguments[0], arguments[1])"
        (left, top), (right, below) = (
            self.driver.execute_script(place, x, y) for x, y in ((x0, y0), (x1, y1))
        )
        return slice(int(top), int(below)), slice(int(left), int(right))

    def test_the_legend_says_what_the_map_shows(self):
        """A cell has the colour that the legend has at its distance, wherever the scale ends."""
        self.show(house(), "--radius", "1")
        bar = self.driver.find_element(By.ID, "scale").rect
        for position, end in ((8, 8), (4, 4), (21, 14.0)):
            self.choose(position)
            shot = self.shot()
            for distance in (1, 3):
                cell = self.pixel(shot, distance, 20, (0.5, 0.4))
                at = bar["x"] + bar["width"] * (distance / end + 0.5 / 256)
                legend = shot[int(bar["y"] + 8), int(at)]
                self.assertLess(abs(numpy.array(cell) - legend).max(), 6, (position, distance))

    def test_the_contour(self):
        """It lies between the cells where CLEAROF says that there is room, and those where not."""
        self.show(house(), "--radius", "1")  # (2 + sqrt 2)^2 is 11.7: four cells from a wall
        shot = self.shot()
        found = lambda *sides: [tuple(it) for it in shot[self.inside(*sides)].reshape(-1, 3)]
        self.assertIn(CONTOUR, found(4, 20, 5, 21))
        self.assertNotIn(CONTOUR, found(2, 20, 4, 21))
        self.assertIn(CONTOUR_EDGE, found(3, 20, 5, 21))
        self.driver.find_element(By.ID, "radius").clear()
        self.driver.find_element(By.ID, "radius").send_keys("\n")
        self.until(lambda: not self.driver.find_element(By.ID, "needed").is_displayed())
        self.assertNotIn(CONTOUR, [tuple(it) for it in self.shot()[100:500, 200]])

    def test_red_is_no_room(self):
        """Nothing on the page is red but the cells of a path that are too tight."""
        self.show(house(), "--radius", "0.5")
        self.mode("path")
        for cell in ((10, 20), (50, 20)):
            self.to(*cell).click().perform()
        self.until(lambda: "has room" in self.text("path"))
        swatch = self.driver.find_element(By.CSS_SELECTOR, ".red").rect
        shot = self.shot()
        shot[int(swatch["y"]) - 1 : int(swatch["y"] + swatch["height"]) + 1] = 0
        self.assertEqual(self.reds(shot), 0)
        field = self.driver.find_element(By.ID, "radius")
        field.clear()
        field.send_keys("1.5\n")  # (3 + sqrt 2)^2 is 19.5
        self.until(lambda: "may not fit" in self.text("path"))
        shot = self.shot()
        tight = [x for x in range(11, 50) if self.is_red(self.pixel(shot, x, 20))]
        self.assertEqual(tight, [29, 30, 31])  # up to 17 from the door's end in row 24
        field.clear()
        field.send_keys("1.33\n")  # (2.66 + sqrt 2)^2 is 16.6: a single cell
        self.until(lambda: not self.is_red(self.pixel(self.shot(), 31, 20)))
        tight = [x for x in range(11, 50) if self.is_red(self.pixel(self.shot(), x, 20))]
        self.assertEqual(tight, [30])

    @staticmethod
    def is_red(colour):
        red, green, blue = colour
        return red > 150 and green < 90 and blue < 90

    def reds(self, shot):
        """How many pixels are red."""
        red, green, blue = shot[:, :, 0], shot[:, :, 1], shot[:, :, 2]
        return int(((red > 150) & (green < 90) & (blue < 90)).sum())

    def test_no_obstacle_vanishes_from_afar(self):
        samples = numpy.full((4096, 4096), 254, numpy.uint8)
        cells = [(100 + 390 * k, 150 + 380 * k) for k in range(10)]
        for x, y in cells:
            samples[y, x] = 0
        samples[:, 2048] = 0
        self.show(samples)
        shot = self.shot()
        for cell in cells:
            self.assertEqual(self.pixel(shot, *cell), OBSTACLE, cell)
        for y in range(0, 4096, 50):
            self.assertEqual(self.pixel(shot, 2048, y), OBSTACLE, y)

    # ---- the page

    def test_dark(self):
        self.show(house())
        light = self.shot()
        self.media("prefers-color-scheme", "dark")
        dark = self.shot()
        for name, place in (("the panel", (300, 1075)), ("round the map", (560, 400))):
            self.assertGreater(lightness(light[place]), 75, name)
            self.assertLess(lightness(dark[place]), 30, name)
        self.assertEqual(self.pixel(dark, 0, 20), (0, 0, 0))

    def test_the_widest_places(self):
        """They have the colour of the scale's end, as the legend says, in both themes."""
        self.show(house(), "--radius", "1")
        swatch = self.driver.find_element(By.ID, "far")
        for scheme in ("light", "dark"):
            self.media("prefers-color-scheme", scheme)
            shot = self.shot()
            self.assertEqual(self.pixel(shot, 15, 20, (0.5, 0.4)), BEYOND, scheme)
            said = swatch.value_of_css_property("background-color")
            self.assertEqual(said, "rgba(249, 246, 179, 1)", scheme)

    def test_narrow(self):
        """Under 700 pixels the panel is below the map, which is as wide as the window."""
        self.show(house())
        sizes = "return ['main', 'aside'].map((it) => document.querySelector(it)"
        sizes += ".getBoundingClientRect().toJSON())"
        for width, below in ((699, True), (701, False)):
            metrics = {"width": width, "height": 800, "deviceScaleFactor": 1, "mobile": False}
            self.driver.execute_cdp_cmd("Emulation.setDeviceMetricsOverride", metrics)
            area, panel = self.driver.execute_script(sizes)
            self.assertEqual(panel["top"] >= area["bottom"], below, width)
            self.assertEqual(panel["left"] >= area["right"], not below, width)

    def test_labels_stay_inside(self):
        self.show(house())
        for place in ((0, 0), (799, 0), (0, 599), (799, 599), (400, 300)):
            call = f"it.boxAt({list(place)}, 150, {{ width: 800, height: 600 }})"
            box = self.seen("labels.js", call)
            inside = 44 <= box["x"] <= 650 and 50 <= box["y"] <= 600 - 24 - 22
            self.assertTrue(inside, (place, box))

    def test_rulers(self):
        """The axes are in metres of the yaml's frame, whose y points upwards."""
        self.show(house())
        state = "{ resolution: 0.5, origin: [-1, -2], height: 40 }"
        told = self.seen("rulers.js", f"new it.Frame({state}).told(4, 40)")
        self.assertEqual(told, [1, -2])
        back = self.seen("rulers.js", f"new it.Frame({state}).place(1, -2)")
        self.assertEqual(back, [4, 40])
        self.assertEqual(self.seen("rulers.js", "it.ticks(3.2, -1.1, 1)"), [-1, 0, 1, 2, 3])
        rounds = self.seen("sight.js", "[0.07, 1, 49, 0.2].map(it.roundBelow)")
        self.assertEqual(rounds, [0.05, 1, 20, 0.2])

    def test_what_is_not_here_yet(self):
        """Cells whose numbers haven't come are left blank, and aren't shown as free."""
        self.show(house())
        about = "{ width: 2, height: 1, levels: 1, side: 512, serial: 999, metric: 'city' }"
        window = "{ level: 0, x0: 0, x1: 2, y0: 0, y1: 1 }"
        numbers = f"Array.from(new it.Picture({about}).numbers({window}))"
        self.assertEqual(self.seen("pieces.js", numbers), [2**31 - 2] * 2)
        call = "new it.Scale({ end: 2, square: false, faded: 0 })"
        colours = f"[2 ** 31 - 2, 2 ** 31 - 1, 9].map((number) => {call}.colour(number))"
        nothing, far, beyond = self.seen("colours.js", colours)
        self.assertEqual((nothing, far == beyond, far != 0), (0, True, True))

    def test_the_maps_name(self):
        self.show(house())
        self.assertEqual((self.text("name"), self.driver.title), ("house", "house – clearmap"))


if __name__ == "__main__":
    sys.exit(unittest.main())
