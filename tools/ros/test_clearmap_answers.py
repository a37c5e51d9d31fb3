#!/usr/bin/env python3
"""Tests of what is said of plans, with stand-ins for messages. Needs numpy, and no ROS."""
import math
import pathlib
import sys
import types
import unittest

HERE = pathlib.Path(__file__).resolve().parent
sys.path[:0] = [str(HERE), str(HERE.parent), str(HERE.parent.parent / "clients/python")]

import numpy

import clearmap_answers as answers
from clearmap_feed import Clearance
from clearmap_messages import Kinds

SECOND = answers.SECOND


def cloud():
    return types.SimpleNamespace(header=types.SimpleNamespace())


KINDS = Kinds(None, cloud, lambda **parts: parts, None, None)
PLAN = types.SimpleNamespace(header=types.SimpleNamespace(stamp="9 s", frame_id="map", seq=4))


class Answers(unittest.TestCase):
    def point(self, message):
        """The only point of an answer, by its names."""
        self.assertEqual((message.width, message.height), (1, 1))
        self.assertEqual((message.header.stamp, message.header.frame_id), ("9 s", "map"))
        self.assertEqual((message.point_step, message.row_step, len(message.data)), (64, 64, 64))
        formats = {7: "<f4", 8: "<f8", 6: "<u4"}
        return {
            it["name"]: numpy.frombuffer(message.data, formats[it["datatype"]], 1, it["offset"])[0]
            for it in message.fields
        }

    def test_of_a_plan(self):
        found = Clearance(7, 0.3, 0.2, (1.5, 2.5), (1.5, 2.8))
        message = answers.answer_of(KINDS, PLAN, found, 7400, 12 * SECOND + 34)
        wanted = dict(
            x=1.5, y=2.5, z=0, plan_seq=4, metres=0.3, free_metres=0.2, obstacle_x=1.5,
            obstacle_y=2.8, version=7, map_secs=12, map_nsecs=34, port=7400,
        )  # fmt: skip
        self.assertEqual((self.point(message), message.is_dense), (wanted, True))

    def test_without_an_obstacle(self):
        """It is infinitely far, at no place."""
        message = answers.answer_of(KINDS, PLAN, Clearance(0, math.inf, math.inf), 7400)
        point = self.point(message)
        self.assertEqual((point["metres"], point["free_metres"]), (math.inf, math.inf))
        self.assertTrue(all(math.isnan(point[name]) for name in ("x", "y", "obstacle_x", "obstacle_y")))
        self.assertFalse(message.is_dense)

    def test_of_a_plan_that_is_not_taken(self):
        """No comparison with its metres holds."""
        point = self.point(answers.answer_of(KINDS, PLAN, None, 7400, 12 * SECOND))
        for name in ("metres", "free_metres"):
            self.assertFalse(point[name] >= 0 or point[name] < 0)
        self.assertEqual([point[name] for name in ("version", "port", "map_secs")], [0, 0, 0])


class Warnings(unittest.TestCase):
    def test_quiet(self):
        """The seconds, what is to be said, and whether it is; None for a success."""
        said, now = [], [0.0]
        quiet = answers.Quiet(said.append, lambda: now[0])
        for seconds, sentence, is_said in (
            (0, "the point (1.5, -2) isn't on the map", True),
            (1, "the point (1.25, 1e-05) isn't on the map", False),
            (1, "no map has come yet", True),
            (2, "the point (3, 4) isn't on the map", False),
            (10.5, "the point (3, 4) isn't on the map", True),
            (10.6, "no map has come yet", False),
            (10.7, None, False),
            (10.8, "no map has come yet", True),
        ):
            now[0] = float(seconds)
            before = len(said)
            quiet.forget() if sentence is None else quiet.say(sentence)
            self.assertEqual(said[before:], [sentence] if is_said else [], seconds)


if __name__ == "__main__":
    unittest.main()
