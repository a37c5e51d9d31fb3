#!/usr/bin/env python3
"""Tests of clearmap_ros2_node.py with stand-ins for rclpy and its messages, and the built server,
which CLEARMAP names. Needs numpy, and no ROS."""
import math
import pathlib
import subprocess
import sys
import time
import types
import unittest
from unittest import mock

HERE = pathlib.Path(__file__).resolve().parent
FOLDERS = HERE, HERE.parent, HERE.parent.parent / "clients/python", HERE.parent / "view"
sys.path[:0] = [str(folder) for folder in FOLDERS]

import numpy

import clearmap
import clearmap_answers as answers
import clearmap_costmap as costmaps
import clearmap_grid as grids
from clearmap_ros import RosError, read_map
from served import PROGRAM, Served

HOUSE = HERE.parent.parent / "examples/house.yaml"
PATIENCE = 20  # seconds


class Message:
    """A message, which has the fields of its class alone."""

    FIELDS = {}

    def __init__(self, **fields):
        made = {name: make() for name, make in self.FIELDS.items()}
        self.__dict__.update(made)
        for name, value in fields.items():
            setattr(self, name, value)

    def __setattr__(self, name, value):
        if name not in self.FIELDS:
            raise AttributeError(f"{type(self).__name__} has no {name}")
        self.__dict__[name] = value


def kind(name, /, **fields):
    """A class of messages, with what makes each field."""
    return type(name, (Message,), {"FIELDS": fields})


Time = kind("Time", sec=int, nanosec=int)
Header = kind("Header", stamp=Time, frame_id=str)
Point = kind("Point", x=float, y=float, z=float)
Turn = kind("Quaternion", x=float, y=float, z=float, w=float)
Pose = kind("Pose", position=Point, orientation=Turn)
Info = kind("Info", map_load_time=Time, resolution=float, width=int, height=int, origin=Pose)
OccupancyGrid = kind("OccupancyGrid", header=Header, info=Info, data=list)
PoseStamped = kind("PoseStamped", header=Header, pose=Pose)
Path = kind("Path", header=Header, poses=list)
PointField = kind("PointField", name=str, offset=int, datatype=int, count=int)
CLOUD = dict.fromkeys(("height", "width", "point_step", "row_step"), int)
CLOUD.update(header=Header, fields=list, data=bytes, is_dense=bool, is_bigendian=bool)
PointCloud2 = kind("PointCloud2", **CLOUD)
Float64, UInt64 = kind("Float64", data=float), kind("UInt64", data=int)


class FakeNode:
    """What a node of rclpy has that is used; `values` are its parameters."""

    values = {}

    def __init__(self, name):
        self.name, self.published, self.said = name, [], []

    def declare_parameter(self, name, default):
        return types.SimpleNamespace(value=self.values.get(name, default))

    def create_publisher(self, kind, topic, quality):
        def publish(message):
            assert isinstance(message, kind)
            self.published.append((topic, message))

        return types.SimpleNamespace(publish=publish)

    def create_subscription(self, kind, topic, call, quality):
        self.plans = call

    def get_logger(self):
        return types.SimpleNamespace(warning=self.said.append, info=self.said.append)

    def get_clock(self):
        now = types.SimpleNamespace(to_msg=lambda: Time(sec=7))
        return types.SimpleNamespace(now=lambda: now)


def fakes():
    """The modules that the node imports."""
    named = {
        "rclpy": dict(init=lambda args: None, spin=lambda node: None),
        "rclpy.node": dict(Node=FakeNode),
        "rclpy.qos": dict(QoSProfile=dict, DurabilityPolicy=mock.Mock()),
        "rclpy.executors": dict(ExternalShutdownException=RuntimeError),
        "builtin_interfaces.msg": dict(Time=Time),
        "nav_msgs.msg": dict(OccupancyGrid=OccupancyGrid, Path=Path),
        "sensor_msgs.msg": dict(PointCloud2=PointCloud2, PointField=PointField),
        "std_msgs.msg": dict(Float64=Float64, UInt64=UInt64),
    }
    packages = {name.partition(".")[0]: {} for name in named}
    return {name: module(name, parts) for name, parts in {**packages, **named}.items()}


def module(name, parts):
    """A module with these names."""
    made = types.ModuleType(name)
    made.__dict__.update(parts)
    return made


with mock.patch.dict(sys.modules, fakes()):
    import clearmap_ros2_node as nodes


class Node2(unittest.TestCase):
    def node(self, **values):
        FakeNode.values = {"publish_frequency": 50.0, **values}
        node = nodes.ClearmapNode()
        self.addCleanup(node.end)
        return node

    def until(self, holds):
        start = time.monotonic()
        while not holds():
            self.assertLess(time.monotonic() - start, PATIENCE)
            time.sleep(0.01)

    def test_versions_and_plans(self):
        """What is published of the house, before and after a change, and a plan's clearance."""
        known = read_map(HOUSE)
        grid, unknown = grids.grids_of_map(known)
        served = Served(grid.pbm())
        self.addCleanup(served.end)
        node = self.node(yaml=str(HOUSE), port=served.port, robot_radius=0.2, frame_id="odom")
        node.follower.start()
        self.until(lambda: len(node.published) == 4)
        with clearmap.Client(served.port) as client:
            client.paint(150, 100, 153, 104)
            client.publish()
        self.until(lambda: len(node.published) == 8)
        topics = ["~/map", "~/costmap", "~/distance", "~/version"]
        self.assertEqual([topic for topic, _ in node.published], 2 * topics)
        plain, costs, cloud, number = (message for _, message in node.published[4:])
        self.assertEqual((number.data, plain.info.map_load_time.sec), (1, 1))
        cells = numpy.frombuffer(grid.cells, bool).reshape(220, 320).copy()
        cells[100:104, 150:153] = True
        squares = clearmap.distances(cells)
        values = costmaps.Inflation(0.2, 0.55, 10).values(known.frame.resolution)
        mark = costmaps.unknown_of(unknown)
        self.assertEqual(costs.data, costmaps.from_below(costmaps.costs(squares, values, mark)))
        self.assertEqual(plain.data, costmaps.from_below(costmaps.occupancy(squares, mark)))
        self.assertEqual((cloud.width, len(cloud.data)), ((squares > 0).sum(), cloud.row_step))
        info = costs.info
        self.assertEqual((info.width, info.height, info.resolution), (320, 220, 0.05))
        self.assertEqual((info.origin.position.x, info.origin.orientation.w), (-8.0, 1.0))
        self.assertEqual({it.header.frame_id for it in (plain, costs, cloud)}, {"odom"})
        self.assertEqual({it.header.stamp.sec for it in (plain, costs, cloud)}, {7})
        node.plans(self.plan(known.frame, "odom", (140, 102), (145, 102)))
        self.assertAlmostEqual(node.published[-1][1].data, 5 * 0.05)
        topic, answer = node.published[-2]
        point = numpy.frombuffer(answer.data, answers.ANSWER)[0]
        self.assertEqual((topic, answer.header.stamp.sec), ("~/answer", 9))
        self.assertEqual((point["version"], point["port"]), (1, served.port))
        self.assertEqual(point["metres"], node.published[-1][1].data)
        safe = self.node(yaml=str(HOUSE), port=served.port, frame_id="odom", free_in_any_case=True)
        safe.plans(self.plan(known.frame, "odom", (140, 102), (145, 102)))
        self.assertEqual(safe.published[-1][1].data, known.frame.free_metres(25))
        node.plans(self.plan(known.frame, "map", (140, 102), (145, 102)))
        self.assertTrue(math.isnan(node.published[-1][1].data))
        self.assertTrue(math.isnan(numpy.frombuffer(node.published[-2][1].data, answers.ANSWER)["metres"]))
        self.assertIn("a plan isn't taken: it is in the frame 'map'", node.said[-1])
        served.end()
        self.until(lambda: "the costmap stays at version 1" in node.said[-1])

    def plan(self, frame, frame_id, *cells):
        """A path through the centres of cells."""
        poses = []
        for cell in cells:
            x, y = frame.centre(cell)
            poses.append(PoseStamped(pose=Pose(position=Point(x=x, y=y))))
        return Path(header=Header(frame_id=frame_id, stamp=Time(sec=9)), poses=poses)

    def test_a_server_of_its_own(self):
        with mock.patch.dict("os.environ", CLEARMAP=PROGRAM):
            node = self.node(yaml=str(HOUSE))
        node.follower.look()
        self.assertEqual(node.published[-1][1].data, 0)
        server = node.feed._server
        node.end()
        self.assertIsNotNone(server.poll())

    def test_refused(self):
        for values, sentence in (
            ({}, "there is no yaml"),
            ({"yaml": str(HOUSE), "robot_radius": -1.0}, "none is below 0"),
            ({"yaml": str(HOUSE), "publish_frequency": 0.0}, "is no publish_frequency"),
            ({"yaml": str(HOUSE), "unknown_is_free": "false"}, "is no unknown_is_free"),
            ({"yaml": str(HOUSE), "port": "74x"}, "'74x' is no port"),
            ({"yaml": str(HOUSE), "edge": "walls"}, "'walls' is no edge"),
            ({"yaml": str(HOUSE), "free_in_any_case": "no"}, "'no' is no free_in_any_case"),
        ):
            with self.assertRaisesRegex(RosError, sentence):
                self.node(**values)

    def test_without_ros(self):
        """One line, and status 1, where there is no rclpy."""
        words = [sys.executable, "-I", str(HERE / "clearmap_ros2_node.py")]
        run = subprocess.run(words, capture_output=True, text=True, timeout=PATIENCE)
        self.assertEqual((run.returncode, run.stdout), (1, ""))
        self.assertRegex(run.stderr, "^clearmap_ros2_node.py: .* has no rclpy: .* ROS 2\n$")

    def test_the_first_lines(self):
        """The file says that it wasn't run with ROS 2."""
        self.assertIn("it never ran with ROS 2 itself", nodes.__doc__.split("\n")[0])


if __name__ == "__main__":
    unittest.main()
