#!/usr/bin/env python3
"""Tests of the robot that clearmap-view's page sets down: whether it hits, and its room. CLEARMAP
names the built program."""
import json
import math
import pathlib
import random
import subprocess
import sys
import tempfile
import unittest

from testing import HERE, PATIENCE, POST, YAML, ActionChains, By, InBrowser, Viewing
from testing import WithoutLibrary, webdriver

import clearmap
import numpy
from clearmap.runs import no_library

LONG = "1.5,0.25 1.5,-0.25 -0.5,-0.25 -0.5,0.25"  # most of it is in front of its centre


def corners(text):
    """The points of an outline."""
    return [tuple(map(float, word.split(","))) for word in text.split()]


class Stands(Viewing):
    def robot(self, viewed, x, y, theta=0.0, **words):
        """What is told of a robot, and the status."""
        query = "".join(f"&{name}={word}" for name, word in words.items())
        status, told = viewed.ask("GET", f"/robot?x={x}&y={y}&theta={theta}{query}")
        return status, json.loads(told)

    def setUp(self):
        super().setUp()
        self.area = clearmap.Map(numpy.array([[int(c) for c in row] for row in
                                              POST.decode().split("\n")[2:6]], bool), "open") if (
            self.in_process) else None  # fmt: skip

    def yaml(self):
        """A map's yaml, of half a metre for each cell."""
        folder = pathlib.Path(self.enterContext(tempfile.TemporaryDirectory()))
        (folder / "house.yaml").write_text(YAML)
        (folder / "map.pgm").write_bytes(b"P5\n6 4\n255\n" + b"\xfe" * 24)
        return str(folder / "house.yaml")

    def is_as(self, viewed, footprint, outline_unit):
        """What is told of poses is what a footprint answers."""
        chance = random.Random(48)
        for _ in range(60):
            x, y, theta = chance.randrange(6), chance.randrange(4), chance.uniform(-4, 4)
            _, told = self.robot(viewed, x, y, theta)
            if not self.in_process:
                self.assertIsNone(told["hits"])
                self.assertIn("isn't known without libclearmap", told["said"])
                continue
            pose = x + 0.5, y + 0.5, theta
            self.assertEqual(told["hits"], footprint.hits(self.area, *pose), pose)
            if not told["hits"]:
                free, unit = told["length"].split()[-3:-1]
                free = 0 if "less than" in told["length"] else float(free)
                least = {"m": 0.001, "cells": 0.01}[unit]
                self.assertEqual(unit, outline_unit)
                found = footprint.clearance(self.area, *pose)
                self.assertTrue(free - 1e-9 <= found < free + least, (told, found))

    def test_in_cells(self):
        viewed, state = self.view("--footprint", LONG)
        self.assertEqual(state["footprint"], [list(point) for point in corners(LONG)])
        self.is_as(viewed, self.in_process and clearmap.Footprint(corners(LONG)), "cells")
        _, told = self.robot(viewed, 0, 1, math.pi / 2)
        self.assertTrue(told["said"].startswith("robot at cell 0, 1, turned by 90°: "))

    def test_in_metres(self):
        """Its y is to the left, and turns are told counterclockwise."""
        slanted = "0.5,0.25 -0.25,0.25 -0.25,-0.125"
        viewed, state = self.view("--map", self.yaml(), "--footprint", slanted)
        self.assertEqual(state["footprint"], [[1.0, -0.5], [-0.5, -0.5], [-0.5, 0.25]])
        frame = clearmap.Frame(6, 4, "0.5", "-1", "-2")
        outline = [word.split(",") for word in slanted.split()]
        self.is_as(viewed, self.in_process and frame.footprint(outline).in_cells, "m")
        _, told = self.robot(viewed, 0, 1, -math.pi / 2)
        said = "robot at cell 0, 1 (-0.750 m, -0.750 m), turned by 90°: "
        self.assertTrue(told["said"].startswith(said), told)

    def test_a_disc(self):
        viewed, state = self.view()
        self.assertEqual(state["footprint"], [])
        for cell, radius, hits, said in (
            ((4, 1), "0.5", False, "robot at cell 4, 1: 1.00 cells free"),
            ((4, 1), "1.5", True, "robot at cell 4, 1: it hits"),
            ((2, 1), "0", True, "robot at cell 2, 1: it hits"),
        ):
            status, told = self.robot(viewed, *cell, radius=radius)
            if self.in_process:
                self.assertEqual((status, told["hits"], told["said"]), (200, hits, said))
            else:
                self.assertIsNone(told["hits"])
        with clearmap.Client(self.served.port) as other:
            other.clear(2, 1, 3, 2)
            other.publish()
        next(it for it in self.states if it["version"] == 1)
        told = self.robot(viewed, 2, 1, radius="1")[1]
        if self.in_process:
            self.assertEqual(told["said"], "robot at cell 2, 1: the map has no obstacle")

    def test_faults(self):
        viewed, _ = self.view()
        for words, said in (
            ({"radius": "wide"}, "wants a radius, as 0.22"),
            ({"radius": ""}, "wants a radius, as 0.22"),
            ({"radius": "1", "unit": "m"}, "told in m, and the map isn't"),
        ):
            status, told = self.robot(viewed, 1, 1, **words)
            self.assertEqual(status, 400)
            self.assertIn(said, told["fault"])
        for x, theta, said in ((6, 0, "isn't on the map"), (1, "nan", "turned by radians"),
                               (1, "left", "turned by radians")):  # fmt: skip
            status, told = self.robot(viewed, x, 1, theta, radius="1")
            self.assertEqual(status, 400)
            self.assertIn(said, told["fault"])

    def test_the_command_line(self):
        """What is no convex outline is refused, before anything is served."""
        script = [sys.executable, str(HERE / "clearmap_view.py"), "--port", "7400", "--web", "0"]
        for text, status, said in (
            ("1,1 2", 2, "isn't the points of a footprint"),
            ("1,1 2,x 3,3", 2, "'x' is no number"),
            ("1,1 2,2", 1, "clearmap-view: the footprint: "),
        ):
            run = subprocess.run([*script, "--footprint", text], capture_output=True, text=True,
                                 timeout=PATIENCE)  # fmt: skip
            self.assertEqual((run.returncode, run.stdout), (status, ""), run.stderr)
            self.assertIn(said, run.stderr)


@unittest.skipIf(no_library(), "there is no library: the tests above are without it")
class StandsWithoutLibrary(WithoutLibrary, Stands):
    """The same, where a robot is drawn, and whether it hits isn't known."""


@unittest.skipIf(no_library(), "there is no library: no robot is asked about")
class OnThePage(InBrowser):
    def turn(self, cell, towards):
        """Presses at a cell, and drags towards another one."""
        self.to(*towards, self.to(*cell).click_and_hold()).perform()

    def release(self):
        ActionChains(self.driver).release().perform()

    def are_marked(self, x, y, red):
        """Whether the marks around a place in cells are of a robot that hits, or of one that
        doesn't."""
        colours = [list(map(int, colour.split())) for colour in self.colours(x, y)]
        is_red = lambda it: it[0] > 180 and max(it[1:3]) < 90
        is_dark = lambda it: max(it[:3]) < 100
        return any(it[3] == 255 and (is_red(it) if red else is_dark(it)) for it in colours)

    def colours(self, x, y):
        """The marks' colours around a place in cells."""
        return self.driver.execute_async_script(
            """const [x, y, done] = arguments;
            const [px, py] = window.clearmapView.pixel(x, y).map(Math.round);
            const context = document.getElementById("marks").getContext("2d");
            requestAnimationFrame(() => setTimeout(() => {
              const { data } = context.getImageData(px - 2, py - 2, 4, 4);
              done(Array.from({ length: 16 }, (_, k) => data.slice(4 * k, 4 * k + 4).join(" ")));
            }, 30));""",
            x, y,
        )  # fmt: skip

    def said(self, text):
        self.until(lambda: self.text("robot") == text)

    def test_a_footprint(self):
        """It is set down by a click, turned by a drag, and red where it hits."""
        self.open(view=["--footprint", LONG])
        self.mode("robot")
        self.to(3, 2).click().perform()
        self.said("robot at cell 3, 2, turned by 0°: 0.25 cells free")
        self.assertTrue(self.are_marked(5, 2.5, red=False))  # its front
        self.turn((3, 2), (3, 0))  # rounded, so less by 1/16384
        self.said("robot at cell 3, 2, turned by 270°: 0.24 cells free")
        self.release()
        self.assertTrue(self.are_marked(3.5, 1, red=False))
        self.turn((3, 1), (1, 1))
        self.said("robot at cell 3, 1, turned by 180°: it hits")
        self.until(lambda: self.are_marked(3, 1.75, red=True))
        ActionChains(self.driver).send_keys(webdriver.Keys.ESCAPE).perform()
        self.said("robot at cell 3, 2, turned by 270°: 0.24 cells free")
        self.release()
        self.to(2, 2).click().perform()  # turned as before
        self.said("robot at cell 2, 2, turned by 270°: it hits")
        with clearmap.Client(self.served.port) as other:
            other.clear(2, 1, 3, 2)
            other.publish()
        self.said("robot at cell 2, 2, turned by 270°: the map has no obstacle")
        self.driver.find_element(By.ID, "lift").click()
        self.until(lambda: not self.driver.find_element(By.ID, "robots").is_displayed())

    def test_no_answer_is_of_another_pose(self):
        """While the answer for a new pose is on its way, nothing of the one before is drawn."""
        self.open()
        told = self.driver.execute_async_script(
            """const [done] = arguments;
            import("/robot.js").then(async ({ Robot }) => {
              const page = { radius: "1", unit: "cells", drafts: [], state: {} };
              const [robot, fetched] = [new Robot(page, () => {}), window.fetch];
              const hit = { hits: true, length: "it hits", said: "it hits", version: 0 };
              window.fetch = async () => new Response(JSON.stringify(hit));
              robot.put({ x: 1, y: 1 });
              await new Promise((settle) => setTimeout(settle, 200));
              const first = robot.told?.length;
              window.fetch = () => new Promise(() => {});
              robot.put({ x: 3, y: 1 });
              window.fetch = fetched;
              done([first, robot.told]);
            });"""
        )
        self.assertEqual(told, ["it hits", None])

    def test_a_disc(self):
        self.open(view=["--radius", "0.5"])
        ActionChains(self.driver).send_keys("r").perform()
        self.to(4, 1).click().perform()
        self.said("robot at cell 4, 1: 1.00 cells free")
        self.assertTrue(self.are_marked(5, 1.5, red=False))
        field = self.driver.find_element(By.ID, "radius")
        field.clear()
        field.send_keys("1.5\n")
        self.said("robot at cell 4, 1: it hits")


if __name__ == "__main__":
    sys.exit(unittest.main())
