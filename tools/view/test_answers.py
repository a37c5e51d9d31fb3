#!/usr/bin/env python3
"""Tests of what clearmap-view's page says of a cell and of a path: what a draft leaves open, what a
robot needs, unknown cells, and no cell at all. CLEARMAP names the built program."""
import json
import pathlib
import sys
import tempfile
import unittest

from testing import YAML, By, InBrowser, Viewing

import clearmap

UNCOUNTED = ", in version 0; the draft isn't counted"
TEAL, PURPLE = "rgba(0, 106, 95, 1)", "rgba(123, 31, 162, 1)"


def corner(folder):
    """A map of 6 by 4 cells whose upper left cell isn't known, and the one in its right is an
    obstacle."""
    (folder / "house.yaml").write_text(YAML)
    (folder / "map.pgm").write_bytes(b"P5\n6 4\n255\n" + b"\xcd\x00" + b"\xfe" * 22)
    return b"P1\n6 4\n110000\n000000\n000000\n000000\n", str(folder / "house.yaml")


class Unknown(Viewing):
    def test_unknown_cells(self):
        """They are told as such, by a cell and by a path, and as free once they are cleared."""
        folder = pathlib.Path(self.enterContext(tempfile.TemporaryDirectory()))
        image, yaml = corner(folder)
        self.served.end()
        self.served = type(self.served)(image)
        self.addCleanup(self.served.end)
        viewed, _ = self.view("--map", yaml)
        at = lambda x: json.loads(viewed.ask("GET", f"/at?metric=city&x={x}&y=0")[1])
        unknown = "unknown, counted as an obstacle"
        self.assertEqual(at(0)["said"], f"cell 0, 0 (-0.750 m, -0.250 m): {unknown}")
        self.assertEqual((at(0)["length"], at(1)["length"]), ("unknown", "in an obstacle"))
        way = json.dumps({"metric": "city", "points": [[0, 0]], "radius": ""})
        said = json.loads(viewed.ask("POST", "/path", way)[1])["said"]
        self.assertTrue(said.endswith(f": {unknown}"), said)
        with clearmap.Client(self.served.port) as other:
            other.clear(0, 0, 1, 1)
            other.publish()
        next(it for it in self.states if it["version"] == 1)
        self.assertEqual(at(0)["length"], "1 step, 0.500 m")


class Answers(InBrowser):
    def draw(self, name, cell):
        """Draws a rectangle of one cell."""
        self.mode(name)
        self.to(*cell).click().perform()

    def shown(self, name):
        return self.driver.find_element(By.ID, name).is_displayed()

    def colour_of(self, selector):
        """The colour of a swatch's border."""
        swatch = self.driver.find_element(By.CSS_SELECTOR, selector)
        return swatch.value_of_css_property("border-top-color")

    def test_a_draft_is_not_counted(self):
        """An answer says so wherever there is a draft, and doesn't promise room; it says nothing of
        it once there is none."""
        self.open(view=["--radius", "0.1"])
        self.mode("path")
        for cell in ((5, 3), (5, 0)):
            self.to(*cell).click().perform()
        self.until(lambda: "; the robot has room" in self.text("path"))
        way = self.driver.find_element(By.ID, "path")
        self.assertEqual(way.get_attribute("class"), "clear")
        self.draw("paint", (5, 2))
        self.until(lambda: self.text("path").endswith(UNCOUNTED))
        self.assertIn("; the robot has room", self.text("path"))
        self.assertEqual(way.get_attribute("class"), "")
        self.mode("look")
        self.to(4, 2).perform()
        self.to(5, 2).perform()
        said = "cell 5, 2: 3.16 cells from the obstacle at 2, 1"
        self.until(lambda: self.text("point") == said + UNCOUNTED)
        self.press("publish")
        said = "tightest at cell 5, 2: in an obstacle; may not fit (safe rule)"
        self.until(lambda: self.text("path").startswith(said))
        self.to(5, 2).perform()
        self.until(lambda: self.text("point") == "cell 5, 2: in an obstacle")

    def test_the_legend_has_the_drafts_colours(self):
        self.open()
        self.assertEqual(self.text("painted"), "painted, not published yet")
        self.assertEqual(self.text("cleared"), "cleared, not published yet")
        self.assertFalse(self.shown("gone"))
        self.draw("paint", (5, 2))
        self.draw("clear", (2, 1))
        self.until(lambda: self.button("publish").text == "Publish 2 changes")
        self.assertEqual(self.colour_of("#painted .swatch"), PURPLE)
        self.assertEqual(self.colour_of("#cleared .swatch"), TEAL)
        self.assertEqual(self.mark(5, 2), PURPLE)
        self.assertEqual(self.mark(2, 1), TEAL)

    def mark(self, x, y):
        """The colour of the marks in the middle of a cell's left side."""
        return self.driver.execute_async_script(
            """const [x, y, done] = arguments;
            const place = window.clearmapView.pixel(x, y + 0.5).map(Math.round);
            const context = document.getElementById("marks").getContext("2d");
            requestAnimationFrame(() => setTimeout(() => {
              const { data } = context.getImageData(...place, 1, 1);
              done(`rgba(${data[0]}, ${data[1]}, ${data[2]}, ${data[3] / 255})`);
            }, 30));""",
            x, y,
        )  # fmt: skip

    def test_what_a_robot_needs(self):
        """The scale's marker says how far a cell has to be, as a path does."""
        folder = pathlib.Path(self.enterContext(tempfile.TemporaryDirectory()))
        image, yaml = corner(folder)
        pathlib.Path(yaml).write_text(YAML.replace("0.5\n", "0.05\n", 1))
        self.open(image, view=["--map", yaml, "--radius", "0.22"])
        needed = "0.292 m needed, middle to middle"  # (4.4 + sqrt 2)^2 is 33.8, and 34 is needed
        self.until(lambda: self.text("marker") == needed)
        marker = self.driver.find_element(By.ID, "needed")
        self.assertEqual(marker.get_attribute("title"), needed)
        self.mode("path")
        self.to(5, 3).click().perform()
        said = ": 0.250 of 0.292 m; may not fit (safe rule)"
        self.until(lambda: said in self.text("path"))
        field = self.driver.find_element(By.ID, "radius")
        field.clear()
        field.send_keys("\n")
        self.until(lambda: not self.shown("marker"))

    def test_a_radius_that_is_no_number(self):
        """It isn't taken for none, nor for 0: the page says what is wanted until it is one."""
        self.open(view=["--radius", "1.5"])
        self.mode("path")
        self.to(5, 3).click().perform()
        self.until(lambda: "; the robot has room" in self.text("path"))
        field = self.driver.find_element(By.ID, "radius")
        said = "a radius is a number from 0 on, as 0.22, and '0,22' is none"
        why = "The scale ends at the farthest cell (3.6 cells): "
        for word, end, unread, way in (
            ("0,22", why + "the radius can't be read.", said, said),
            ("0", why + "the radius is 0.", "", "the robot has room"),
            ("", why + "no radius is given.", "", "3.61 cells"),
            ("0.22", "The scale ends at 4 radii (0.9 cells).", "", "the robot has room"),
        ):
            field.clear()
            field.send_keys(word + "\n")
            self.until(lambda: self.text("end") == end)
            self.assertEqual((self.text("unread"), self.shown("unread")), (unread, bool(unread)))
            self.assertEqual(field.get_attribute("aria-invalid"), str(bool(unread)).lower())
            self.until(lambda: way in self.text("path"))

    def test_off_the_map(self):
        """Nothing is read out there, and nothing moves."""
        self.open()
        self.to(5, 3).perform()
        self.until(lambda: "from the obstacle at" in self.text("point"))
        button = self.driver.find_element(By.ID, "link")
        place = button.location
        self.to(6, 3).perform()
        self.until(lambda: self.text("point") == "")
        self.to(5, 3).perform()
        self.until(lambda: "from the obstacle at" in self.text("point"))
        self.assertEqual(button.location, place)
        self.to(5, 3).move_to_element(button).perform()
        self.until(lambda: self.text("point") == "")
        self.assertEqual(button.location, place)


if __name__ == "__main__":
    sys.exit(unittest.main())
