#!/usr/bin/env python3
"""Tests of what clearmap-view answers to requests of every kind. CLEARMAP names the built program.

Each is done with pictures and answers of the library, where it is there, and again without it.
"""
import io
import json
import pathlib
import sys
import tempfile
import unittest
import zlib

from testing import YAML, Viewing, WithoutLibrary

import clearmap
import numpy
from clearmap.runs import no_library
from served import Served

LACKING = no_library()


class Requests(Viewing):
    def path(self, viewed, metric, points, radius=""):
        """What is answered about a path."""
        body = json.dumps({"metric": metric, "points": points, "radius": radius})
        status, said = viewed.ask("POST", "/path", body)
        self.assertEqual(status, 200, said)
        return json.loads(said)

    def at(self, viewed, metric, x, y):
        """What is answered about a cell."""
        status, said = viewed.ask("GET", f"/at?metric={metric}&x={x}&y={y}")
        self.assertEqual(status, 200, said)
        return json.loads(said)

    def test_walls(self):
        """The picture is of the map with its frame where the server's border is a wall, and so are
        the answers."""
        self.served.end()
        self.served = Served(b"P1\n5 3\n00000\n00000\n00000\n", "--edge", "wall")
        self.addCleanup(self.served.end)
        viewed, state = self.view()
        self.assertEqual(state["edge"], "wall")
        self.assertEqual(json.loads(viewed.ask("GET", "/picture/euclid2")[1])["most"], 4)
        told = self.at(viewed, "chess", 2, 1)
        self.assertEqual((told["distance"], told["obstacle"]), (2, [0, -1]))

    def test_pictures(self):
        viewed, state = self.view()
        shown = (state["version"], state["width"], state["height"], state["fault"])
        self.assertEqual((*shown, state["edge"]), (0, 6, 4, "", "open"))
        status, about = viewed.ask("GET", "/picture/city")
        about = json.loads(about)
        found = about["most"], about["levels"], about["hasUnknown"]
        self.assertEqual((status, found), (200, (5, 1, False)))
        status, data = viewed.ask("GET", f"/piece/{about['serial']}/city/0/0/0")
        numbers = numpy.frombuffer(zlib.decompress(data), "<i4").reshape(4, 6)
        self.assertEqual((status, numbers[1].tolist()), (200, [3, 2, 0, 2, 3, 4]))

    def test_cells(self):
        viewed, _ = self.view()
        told = self.at(viewed, "euclid2", 5, 3)
        self.assertEqual((told["version"], told["distance"], told["obstacle"]), (0, 13, [2, 1]))
        self.assertEqual(told["said"], "cell 5, 3: 3.61 cells from the obstacle at 2, 1")
        self.assertEqual(self.at(viewed, "city", 2, 2)["length"], "1 step")
        self.assertEqual(self.at(viewed, "city", 2, 1)["said"], "cell 2, 1: in an obstacle")

    def test_paths(self):
        viewed, _ = self.view()
        told = self.path(viewed, "city", [[0, 0], [5, 0], [5, 3]])
        self.assertEqual(told["corners"], [[0, 0], [5, 0], [5, 3]])
        found = told["tightest"], told["distance"], told.get("clear"), told.get("tight")
        self.assertEqual(found, ([2, 0], 1, None, None))
        for radius in ("0", "0.5", "3"):  # against whole cells the cell is too near for any robot
            self.assertFalse(self.path(viewed, "city", [[2, 0]], radius)["clear"], radius)
        told = self.path(viewed, "euclid2", [[5, 1], [5, 3]], "1.5")
        self.assertEqual((told["clear"], told["distance"], told.get("tight")), (True, 9, None))
        slanted = self.path(viewed, "chess", [[3, 3], [5, 1]])
        self.assertEqual(slanted["corners"], [[3, 3], [4, 3], [4, 2], [5, 2], [5, 1]])

    def test_where_a_path_has_no_room(self):
        """Just the cells are told whose distance is less than the radius asks for."""
        viewed, _ = self.view()
        told = self.path(viewed, "euclid2", [[0, 0], [5, 0]], "0.5")  # (0.5 + sqrt 2)^2 is 3.66
        self.assertEqual((told["clear"], told["tight"]), (False, [[[1, 0], [3, 0]]]))
        told = self.path(viewed, "city", [[0, 0], [5, 0], [5, 3], [0, 3], [0, 1]], "0.5")
        self.assertEqual(told["tight"], [[[1, 0], [3, 0]], [[2, 3]], [[0, 1]]])  # 3 steps
        said = "tightest at cell 2, 0: 1 of 3 steps; may not fit (safe rule)"
        self.assertEqual(told["said"], said)
        told = self.path(viewed, "chess", [[0, 1], [5, 1]], "0")
        self.assertEqual((told["distance"], told["tight"]), (0, [[[2, 1]]]))
        self.assertIn("tightest at cell 2, 1: in an obstacle; may not fit (safe rule)", told["said"])

    def test_exact_room(self):
        """From middle to middle of the points, which the safe rule leaves a cell for; straight."""
        viewed, _ = self.view()
        for metric, radius, points, said in (
            ("euclid2", "0.25", [[0, 2], [5, 2]], "exactly 0.25 cells free"),
            ("euclid2", "0.5", [[0, 2], [5, 2]], "exactly: it hits"),
            ("euclid2", "0.25", [[0, 3], [5, 1]], "exactly 0.21 cells free"),
            ("euclid2", "0.25", [[4, 0]], "exactly 1.33 cells free"),
            ("euclid2", "", [[4, 0]], ""),
            ("city", "0.25", [[4, 0]], ""),
        ):
            told = self.path(viewed, metric, points, radius)["said"]
            if self.in_process and said:
                self.assertTrue(told.endswith(f"; {said}"), told)
            else:
                self.assertNotIn("exactly", told)

    def test_room(self):
        """What a robot's radius asks of a cell is what CLEAROF is asked."""
        viewed, _ = self.view()
        rows = (
            ("euclid2", "0.5", {"needed": 4, "cells": 0.5}, "2.00 cells"),
            ("euclid2", "1.5", {"needed": 9, "cells": 1.5}, "3.00 cells"),
            ("euclid2", "0.9", {"needed": 6, "cells": 0.9}, "2.45 cells"),  # 2.449..: rounded up
            ("city", "0.5", {"needed": 3, "cells": 0.5}, "3 steps"),
            ("chess", "2", {"needed": 3, "cells": 2}, "3 steps"),
            ("chess", "", {"needed": None, "cells": None}, ""),
        )
        for metric, radius, wanted, length in rows:
            status, said = viewed.ask("GET", f"/room?metric={metric}&radius={radius}")
            wanted["said"] = length and f"{length} needed, middle to middle"
            self.assertEqual((status, json.loads(said)), (200, wanted))

    def test_faults(self):
        viewed, _ = self.view()
        path = '{"metric": "city", "points": %s, "radius": "%s"}'
        rows = (
            ("GET", "/at?metric=euclid&x=0&y=0", None, 400, "no such metric"),
            ("GET", "/at?metric=city&x=-1&y=0", None, 400, "two whole numbers"),
            ("GET", "/at?metric=city&x=6&y=0", None, 409, "isn't wholly on the map (ERR 1"),
            ("GET", "/room?metric=city&radius=wide", None, 400, "a radius is a number"),
            ("GET", "/room?metric=city&radius=0,22", None, 400, "as 0.22, and '0,22' is none"),
            ("GET", "/room?metric=city&radius=1&unit=m", None, 400, "told in m, and the map isn't"),
            ("GET", "/piece/99/city/0/0/0", None, 404, "no such picture"),
            ("POST", "/path", "[]", 400, "no JSON object"),
            ("POST", "/path", "\xff", 400, "no JSON object"),
            ("POST", "/path", "7" * 5000, 400, "no JSON object"),
            ("POST", "/path", "[" * 100_000, 400, "no JSON object"),
            ("POST", "/path", path % ("[]", ""), 400, "1 to 200 points"),
            ("POST", "/path", path % ("[[0, 0.5]]", ""), 400, "two whole numbers"),
            ("POST", "/path", path % ("[[0, true]]", ""), 400, "two whole numbers"),
            ("POST", "/path", path % ("[[6, 0]]", ""), 400, "isn't on the map"),
            ("POST", "/path", path % ("[[0, 0]]", "wide"), 400, "a radius is a number"),
            ("POST", "/path", path % ("[[0, 0]]", "-1"), 400, "a radius is a number"),
            ("POST", "/path", path % ("[[0, 0]]", "1e12"), 400, "larger than any map"),
            ("POST", "/path", path % ("[[0, 0]]", "1e999999999"), 400, "larger than any map"),
            ("POST", "/path", path % ("[[0, 0]]", "1e-999999999"), 400, "is no number of a map"),
            ("POST", "/path", path % ("[[0, 0]]", "nan"), 400, "a radius is a number"),
        )
        for method, place, body, status, text in rows:
            with self.subTest(place=place, body=body and body[:80]):
                got, said = viewed.ask(method, place, body)
                self.assertEqual(got, status)
                self.assertIn(text, json.loads(said)["fault"])
        self.assertEqual(viewed.ask("GET", "/clearmap_view.py")[0], 404)

    def test_follows(self):
        viewed, _ = self.view()
        with clearmap.Client(self.served.port) as other:
            other.paint(5, 3, 6, 4)
            for version in (1, 2, 3):  # while a page looks on, old versions can be collected
                other.publish()
                self.assertEqual(next(self.states)["version"], version)
            self.assertGreaterEqual(other.collect().floor, 2)
        self.assertEqual(self.at(viewed, "city", 5, 3)["distance"], 0)

    def test_outlives_the_server(self):
        viewed, _ = self.view()
        self.at(viewed, "city", 5, 3)  # the connection stays for a while
        self.served.end()
        said = f"The server at port {self.served.port} can't be asked"
        self.assertIn(said, next(self.states)["fault"])
        status, told = viewed.ask("GET", "/at?metric=city&x=5&y=3")
        if self.in_process:  # the version that is shown is here
            self.assertEqual((status, json.loads(told)["version"]), (200, 0))
        else:
            self.assertEqual(status, 503)
        again = Served(b"P1\n3 2\n000\n000\n", port=self.served.port)
        self.addCleanup(again.end)
        self.served.process.stdout = io.BytesIO()
        state = next(it for it in self.states if not it["fault"])
        shown = (state["fault"], state["version"], state["width"], state["height"])
        self.assertEqual(shown, ("", 0, 3, 2))
        self.assertIn("no obstacle", self.at(viewed, "city", 2, 1)["said"])
        self.assertIsNone(json.loads(viewed.ask("GET", "/picture/city")[1])["most"])

    def test_metres(self):
        with tempfile.TemporaryDirectory() as folder:
            yaml = pathlib.Path(folder, "house.yaml")
            yaml.write_text(YAML)
            pathlib.Path(folder, "map.pgm").write_bytes(b"P5\n6 4\n255\n" + b"\xfe" * 24)
            viewed, state = self.view("--map", str(yaml), "--radius", "0.3")
            told = [state[name] for name in ("name", "resolution", "origin", "radius")]
            self.assertEqual(told, ["house", 0.5, [-1.0, -2.0], "0.3"])
            said = "cell 5, 3 (1.750 m, -1.750 m): 3.61 cells, 1.802 m from the obstacle at 2, 1"
            self.assertEqual(self.at(viewed, "euclid2", 5, 3)["said"], said)
            for radius, clear, said, free in (
                ("0.75", True, "1.500 of 1.500 m; the robot has room", "exactly 0.500 m free"),
                # (1.6 + sqrt 2)^2 is 9.1, and the root of 10 half metres 1.581.., rounded up
                ("0.8", False, "1.500 of 1.582 m; may not fit (safe rule)", "exactly 0.450 m free"),
                ("1.2496", False, "1.500 of 2.000 m; may not fit (safe rule)",
                 "exactly less than 0.001 m free"),
                ("1.25", False, "1.500 of 2.000 m; may not fit (safe rule)", "exactly: it hits"),
            ):  # fmt: skip
                told = self.path(viewed, "euclid2", [[5, 1]], radius)
                self.assertEqual((told["clear"], told["distance"]), (clear, 9))
                said = f"tightest at cell 5, 1 (1.750 m, -0.750 m): {said}"
                said += f"; {free}" if self.in_process else ""
                self.assertEqual(told["said"], said)
            self.assertEqual(told["long"], "1 point, 0.00 m long")
            told = self.path(viewed, "city", [[0, 0], [3, 0], [3, 3], [0, 0]])
            self.assertEqual(told["long"], "4 points, 5.12 m long")
            pathlib.Path(folder, "map.pgm").write_bytes(b"P5\n4 3\n255\n" + b"\xcd" * 12)
            viewed, state = self.view("--map", str(yaml), "--radius", "0.3")
            told = [state[name] for name in ("resolution", "origin", "radius")]
            self.assertEqual(told, [None, None, ""])  # no metres are taken for cells
            sizes = "The yaml's image has 4 by 3 cells, and the served map 6 by 4"
            self.assertIn(sizes, state["notice"])
            about = json.loads(viewed.ask("GET", "/picture/city")[1])
            self.assertFalse(about["hasUnknown"])


@unittest.skipIf(LACKING, "there is no library: the tests above are without it")
class RequestsWithoutLibrary(WithoutLibrary, Requests):
    """The same, where each picture takes a run of the program, and the server is asked."""


if __name__ == "__main__":
    sys.exit(unittest.main())
