#!/usr/bin/env python3
"""Tests of the versions that clearmap_node.py publishes, with a real master and subscribers of ROS
1, against a search of all obstacles; CLEARMAP names the built program.

Needs what test_clearmap_node.py wants, numpy, and Debian's python3-sensor-msgs; roslaunch, where it
is there, is tried too. Loopback only, and nothing is left.
"""
import math
import os
import pathlib
import random
import shutil
import signal
import subprocess
import sys
import unittest

HERE = pathlib.Path(__file__).resolve().parent
FOLDERS = HERE, HERE.parent, HERE.parent.parent / "clients/python", HERE.parent / "view"
sys.path[:0] = [str(folder) for folder in FOLDERS]

import numpy
import rospy
from map_msgs.msg import OccupancyGridUpdate
from nav_msgs.msg import OccupancyGrid
from sensor_msgs.msg import PointCloud2
from std_msgs.msg import UInt64

import clearmap
import clearmap_costmap as costmaps
import clearmap_grid as grids
import test_clearmap_costmap as models
import test_clearmap_node as nodes
from clearmap_ros import read_map
from served import Served, blank

HOUSE = HERE.parent.parent / "examples/house.yaml"
GRIDS = {"map": OccupancyGrid, "costmap": OccupancyGrid}
TOPICS = {**GRIDS, "distance": PointCloud2, "version": UInt64}
RADII = "0.1", "0.3", "4"  # the robot's, the inflation's, and the factor
NAMES = "robot_radius", "inflation_radius", "cost_scaling_factor"
WORDS = [f"_{name}:={number}" for name, number in zip(NAMES, RADII)]
STEP = "0.05"


class Running(nodes.Running):
    """Nodes of different names, so that none gets what another one publishes."""

    count = 0

    def setUp(self):
        Running.count += 1
        self.name = f"clearmap_{Running.count}"
        self.log = pathlib.Path(self.folder.name, self.name)
        self.came = {name: [] for name in TOPICS}
        for name, kind in TOPICS.items():
            topic = rospy.Subscriber(f"/{self.name}/{name}", kind, self.came[name].append)
            self.addCleanup(topic.unregister)

    def run_words(self, words):
        """A process, the first of its group, whose log is kept."""
        with open(self.log, "wb") as log:
            process = subprocess.Popen(words, stdout=log, stderr=log, start_new_session=True)
        self.addCleanup(self.end, process)
        return process

    def start(self, *words):
        """A node."""
        named = f"__name:={self.name}", f"map:=/{self.name}/in", f"map_updates:=/{self.name}/part"
        return self.run_words([sys.executable, str(HERE / "clearmap_node.py"), *named, *words])

    def until_version(self, version, count=1):
        """Waits until a version came whole, so often; its map, its costmap and its distances."""
        def whole():
            came = [it for it in self.came["map"] if it.info.map_load_time.secs == version]
            numbers = [it.data for it in self.came["version"]]
            if min(len(came), numbers.count(version)) < count:
                return []
            same = [self.stamped(name, came[-1].header.stamp) for name in ("costmap", "distance")]
            return [came[-1], *(it[0] for it in same)] if all(same) else []

        nodes.until(whole, f"version {version}")
        layers = whole()
        self.assertEqual(layers[1].info.map_load_time.secs, version)
        return layers

    def stamped(self, name, stamp):
        """What came on a topic with this stamp."""
        return [it for it in self.came[name] if it.header.stamp == stamp]

    def told(self, part):
        """How often a line with these words is in the node's log."""
        return sum(part in line for line in self.log.read_text().splitlines())


def blocked_of(values, width, height):
    """Which cells of a message are obstacles, by the usual thresholds, by rows from the top."""
    rows = [values[row * width : (row + 1) * width] for row in reversed(range(height))]
    return [[value == -1 or value >= 20 for value in row] for row in rows]


class Layers(Running):
    def check(self, layers, cells, unknown):
        """Layers are those of these cells, by a search of all obstacles; both by rows from the
        top."""
        plain, costs, cloud = layers
        least = models.least_of(cells)
        floats = [float(it) for it in (STEP, *RADII)]
        width, height = len(cells[0]), len(cells)
        self.assertEqual((costs.info.width, costs.info.height), (width, height))
        points = {}
        for x, y, z, metres in numpy.frombuffer(cloud.data, costmaps.POINT).tolist():
            points[round(x, 3), round(y, 3)] = metres
        free = 0
        for y in range(height):
            for x in range(width):
                at, square = (height - 1 - y) * width + x, least[y][x]
                cost, value = models.published(square, *floats), 100 if square == 0 else 0
                is_unknown = unknown[y][x] and square == 0
                self.assertEqual(plain.data[at], -1 if is_unknown else value, (x, y))
                self.assertEqual(costs.data[at], -1 if is_unknown else cost, (x, y))
                if 0 < square < math.inf:
                    free += 1
                    where = (x + 0.5) * 0.05 - 10, (height - y - 0.5) * 0.05 - 7.5
                    metres = points[round(where[0], 3), round(where[1], 3)]
                    self.assertAlmostEqual(metres, math.sqrt(square) * 0.05, places=5)
        self.assertEqual(len(points), free)

    def test_maps_of_a_topic(self):
        """Maps drawn at random, with unknown cells, each other than the one before, and updates."""
        draw = random.Random(21)
        width, height = 37, 23
        maps = rospy.Publisher(f"/{self.name}/in", OccupancyGrid, queue_size=1)
        parts = rospy.Publisher(f"/{self.name}/part", OccupancyGridUpdate, queue_size=1)
        self.start(*WORDS, "_publish_frequency:=50")
        nodes.until(lambda: maps.get_num_connections() and parts.get_num_connections(), "the node")
        values = []
        for version in range(8):
            if version % 3 != 2:
                share = draw.choice((0.01, 0.1))
                kinds = [draw.random() < share for _ in range(width * height)]
                values = [draw.choice((100, -1, 50, 20) if it else (0, 10)) for it in kinds]
                message = nodes.map_message(width=width, height=height)
                message.data = values
                maps.publish(message)
            else:
                x, y = draw.randrange(width - 3), draw.randrange(height - 2)
                part = [draw.choice((-1, 0, 100)) for _ in range(6)]
                part[0] = 0 if values[y * width + x] else 100
                for at, value in enumerate(part):
                    values[(y + at // 3) * width + x + at % 3] = value
                parts.publish(OccupancyGridUpdate(x=x, y=y, width=3, height=2, data=part))
            layers = self.until_version(version)
            blocked = blocked_of(values, width, height)
            rows = [values[row * width : (row + 1) * width] for row in reversed(range(height))]
            self.check(layers, blocked, [[value == -1 for value in row] for row in rows])
            self.assertEqual({it.header.frame_id for it in layers}, {"map"})
        numbers = [it.data for it in self.came["version"]]
        self.assertEqual(numbers, list(range(8)))
        moved = nodes.map_message(width=width, height=height, frame_id="hall")
        moved.data, moved.info.origin.position.x = values, 3.0
        maps.publish(moved)
        layers = self.until_version(7, count=2)
        self.assertEqual({it.header.frame_id for it in layers}, {"hall"})
        self.assertEqual(layers[1].info.origin.position.x, 3.0)

    def test_a_given_server(self):
        """Painters of a served map are followed; a lost server is told once, and what was published
        stays with its number; another map is refused."""
        known = read_map(HOUSE)
        grid, unknown = grids.grids_of_map(known)
        served = Served(grid.pbm())
        self.addCleanup(served.end)
        self.start(f"_yaml:={HOUSE}", f"_port:={served.port}", "_frame_id:=odom", *WORDS)
        self.until_version(0)
        cells = numpy.frombuffer(grid.cells, bool).reshape(220, 320).copy()
        with clearmap.Client(served.port) as client:
            for column in (150, 160, 170):
                client.paint(column, 100, column + 1, 110)
                cells[100:110, column] = True
                client.publish()
            client.clear(3, 3, 5, 4)  # which the yaml's map doesn't know
            cells[3:4, 3:5] = False
            client.publish()
        layers = self.until_version(4)
        self.check_house(layers, cells, unknown)
        self.assertNotEqual(layers[0].data[216 * 320 + 3], -1)
        served.end()
        nodes.until(lambda: self.told("the costmap stays at version 4"), "a word of the loss")
        late = []
        topic = rospy.Subscriber(f"/{self.name}/version", UInt64, late.append)
        self.addCleanup(topic.unregister)
        nodes.until(lambda: late, "the number that stays")
        self.assertEqual(late[0].data, 4)
        other = Served(blank(64, 48), port=served.port)
        self.addCleanup(other.end)
        nodes.until(lambda: self.told("64 by 48 cells, and 320 by 220 are expected"), "a refusal")
        other.end()
        nodes.until(lambda: self.told("the costmap stays at version 4") == 3, "another loss")
        again = Served(grid.pbm(), port=served.port)
        self.addCleanup(again.end)
        cells = numpy.frombuffer(grid.cells, bool).reshape(220, 320)
        self.check_house(self.until_version(0, count=2), cells, unknown)
        self.assertEqual(self.told("the costmap stays"), 3)

    def check_house(self, layers, cells, unknown):
        """Layers are those of the house with these obstacles."""
        squares = clearmap.distances(cells)
        mark = costmaps.unknown_of(unknown)
        values = costmaps.Inflation(*RADII).values(costmaps.Fraction(STEP))
        wanted = costmaps.occupancy(squares, mark), costmaps.costs(squares, values, mark)
        for layer, cells in zip(layers, wanted):
            self.assertEqual(list(layer.data), list(costmaps.from_below(cells)))
        self.assertEqual({it.header.frame_id for it in layers}, {"odom"})

    def test_an_interrupt(self):
        """The node and its own server end at once, also where a terminal interrupts both."""
        for interrupt in (os.kill, os.killpg):
            self.came["version"].clear()
            node = self.start(f"_yaml:={HOUSE}", "_publish_frequency:=50")
            self.until_version(0)
            port = rospy.get_param(f"/{self.name}/server_port")
            interrupt(node.pid, signal.SIGINT)
            self.assertEqual(node.wait(10), 0)
            ports = [port, rospy.get_param(f"/{self.name}/server_port")]
            for left in set(ports):
                self.assertRaises(clearmap.ConnectionLost, clearmap.Client, left)
            self.assertEqual(self.told("Traceback"), 0, self.log.read_text())
            with self.assertRaises(ProcessLookupError):
                os.killpg(node.pid, 0)  # nothing of the group is left

    def test_a_busy_server(self):
        """A server all of whose workers are taken is told, and an interrupt ends the wait."""
        served = Served(blank(320, 220), "--workers", "1")
        self.addCleanup(served.end)
        with clearmap.Client(served.port):
            node = self.start(f"_yaml:={HOUSE}", f"_port:={served.port}")
            nodes.until(lambda: self.told("there is no costmap yet"), "a word of the wait")
        self.until_version(0)
        node.send_signal(signal.SIGINT)
        self.assertEqual(node.wait(15), 0)

    def test_refused(self):
        """A parameter that makes no sense ends the node with status 1 and one sentence."""
        started = []
        for word, sentence in (
            ("_robot_radius:=-1", "none is below 0"),
            ("_inflation_radius:=0.1", "the first isn't above the second"),
            ("_publish_frequency:=0", "is no publish_frequency"),
            ("_distance_points:=0.5", "is no distance_points"),
            ("_yaml:=/nowhere/map.yaml", "a file of the map can't be read"),
        ):
            self.name, self.log = self.name + "x", self.log.with_name(self.name + "x")
            started.append((self.start(word), self.log, sentence))
        for node, self.log, sentence in started:
            self.assertEqual(node.wait(nodes.PATIENCE), 1, sentence)
            self.assertEqual((self.told(sentence), self.told("Traceback")), (1, 0), sentence)

    def test_launch(self):
        """The launch file starts a node that publishes the yaml's map."""
        if not shutil.which("roslaunch"):
            self.skipTest("there is no roslaunch")
        folder = pathlib.Path(self.folder.name, "bin")
        folder.mkdir()
        folder.joinpath("python3").symlink_to(sys.executable)
        launched = {"PATH": f"{folder}:{os.environ['PATH']}", "ROS_PACKAGE_PATH": str(HERE)}
        self.name = "clearmap"
        for name, kind in TOPICS.items():
            topic = rospy.Subscriber(f"/clearmap/{name}", kind, self.came[name].append)
            self.addCleanup(topic.unregister)
        words = ["roslaunch", "clearmap", "clearmap.launch", f"yaml:={HOUSE}", "rviz:=false"]
        words += ["radius:=0.22", "inflation:=0.4", "scaling:=3"]
        launch = self.run_words(["env", *(f"{name}={it}" for name, it in launched.items()), *words])
        plain, costs, _ = self.until_version(0)
        self.assertEqual((plain.info.width, plain.info.height), (320, 220))
        self.assertEqual(rospy.get_param("/clearmap/inflation_radius"), 0.4)
        self.assertEqual(min(costs.data), -1)
        port = rospy.get_param("/clearmap/server_port")
        launch.send_signal(signal.SIGINT)
        self.assertEqual(launch.wait(nodes.PATIENCE), 0)
        self.assertRaises(clearmap.ConnectionLost, clearmap.Client, port)
        rospy.delete_param("/clearmap")


if __name__ == "__main__":
    unittest.main(warnings="ignore")
