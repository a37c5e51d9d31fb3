#!/usr/bin/env python3
"""Tests of what clearmap-view tells of a new version: which cells became obstacles, and which free.
CLEARMAP names the built program."""
import json
import sys
import unittest

from testing import By, InBrowser, Viewing

import changes
import clearmap
import numpy
from served import Served

ORANGE, WHITE, BLUE = (255, 159, 28), (255, 255, 255), (31, 78, 156)


def cells_of(told, kind, shape):
    """The cells that runs have."""
    cells, side = numpy.zeros(shape, bool), told["side"]
    for row, start, end in told[kind]:
        cells[row * side : (row + 1) * side, start * side : end * side] = True
    return cells


class Runs(unittest.TestCase):
    def test_small_maps(self):
        """The runs have just the changed cells."""
        chance = numpy.random.default_rng(48)
        for _ in range(200):
            shape = tuple(chance.integers(1, 9, 2))
            before, after = (chance.random(shape) < 0.5 for _ in range(2))
            told = changes.told(before, after)
            self.assertEqual(told["side"], 1)
            for kind, wanted in (("obstacles", after & ~before), ("free", before & ~after)):
                self.assertEqual(cells_of(told, kind, shape).tolist(), wanted.tolist())
                self.assertEqual(changes.count_of_runs(wanted), len(told[kind]))

    def test_many_changes(self):
        """Then several cells become one, and none is left out."""
        before = numpy.zeros((601, 899), bool)
        after = numpy.zeros_like(before)
        after[::3, ::2] = True
        told = changes.told(before, after)
        self.assertGreater(told["side"], 1)
        self.assertLessEqual(len(told["obstacles"]), changes.MOST_RUNS)
        self.assertFalse((after & ~cells_of(told, "obstacles", before.shape)).any())
        self.assertEqual(told["free"], [])


class Told(Viewing):
    def test_versions(self):
        """From the version shown before, once there is one."""
        viewed, state = self.view()
        self.assertIsNone(state["changes"])
        self.assertEqual(viewed.ask("GET", f"/changed/{state['serial']}")[0], 404)
        with clearmap.Client(self.served.port) as other:
            other.paint(0, 3, 2, 4)
            other.clear(2, 1, 3, 2)
            other.publish()
        state = next(it for it in self.states if it["version"] == 1)
        counts = {"since": 0, "obstacles": 2, "free": 1, "at": state["changes"]["at"]}
        self.assertEqual(state["changes"], counts)
        self.assertRegex(counts["at"], r"^\d\d:\d\d:\d\d$")
        status, told = viewed.ask("GET", f"/changed/{state['serial']}")
        wanted = {"side": 1, "obstacles": [[3, 0, 2]], "free": [[1, 2, 3]]}
        self.assertEqual((status, json.loads(told)), (200, wanted))

    def test_another_server(self):
        """Its first version isn't compared with the last one's."""
        viewed, _ = self.view()
        self.served.process.kill()
        self.served.process.wait()
        viewed.ask("GET", "/at?metric=city&x=0&y=0")
        next(it for it in self.states if it["fault"])
        again = Served(b"P1\n6 4\n111111\n000000\n000000\n000000\n", port=self.served.port)
        self.addCleanup(again.end)
        state = next(it for it in self.states if not it["fault"])
        self.assertIsNone(state["changes"])


class Shown(InBrowser):
    def marks(self, x, y):
        """The colours in a cell's middle on the marks."""
        return {
            tuple(colour[:3])
            for colour in self.driver.execute_async_script(
                """const [x, y, done] = arguments;
                const [px, py] = window.clearmapView.pixel(x + 0.5, y + 0.5).map(Math.round);
                const context = document.getElementById("marks").getContext("2d");
                requestAnimationFrame(() => setTimeout(() => {
                  const { data } = context.getImageData(px - 6, py - 6, 12, 12);
                  done(Array.from({ length: 144 }, (_, k) => Array.from(data.slice(4 * k, 4 * k + 4)))
                    .filter((colour) => colour[3] === 255));
                }, 30));""",
                x, y,
            )
        }  # fmt: skip

    def publish(self, *rectangles):
        """Another client's new version, once it is shown."""
        with clearmap.Client(self.served.port) as other:
            for draw, sides in rectangles:
                draw(other, *sides)
            version = other.publish().version
        self.until(lambda: self.text("version") == f"version {version}")

    def test_the_page(self):
        """It tells what changed and when, and shows it if one wants that, as the legend says."""
        self.open()
        self.assertFalse(self.driver.find_element(By.ID, "changed").is_displayed())
        paint, clear = clearmap.Client.paint, clearmap.Client.clear
        self.publish((paint, (4, 2, 6, 4)), (clear, (2, 1, 3, 2)))
        told = r"^Version 1 came at \d\d:\d\d:\d\d: 4 cells became obstacles, and 1 cell free since"
        self.until(lambda: self.text("changes"))
        self.assertRegex(self.text("changes"), told + r" version 0\.$")
        self.assertEqual(self.marks(5, 3), set())
        self.driver.find_element(By.ID, "show-changes").click()
        self.until(lambda: self.marks(5, 3) == {ORANGE})
        self.assertTrue({WHITE, BLUE} <= self.marks(2, 1))
        self.assertEqual(self.marks(0, 0), set())
        self.publish((clear, (4, 2, 5, 3)))
        self.until(lambda: {WHITE, BLUE} <= self.marks(4, 2))
        self.assertEqual((self.marks(5, 3), self.marks(2, 1)), (set(), set()))
        self.driver.find_element(By.ID, "show-changes").click()
        self.until(lambda: self.marks(4, 2) == set())


if __name__ == "__main__":
    sys.exit(unittest.main())
