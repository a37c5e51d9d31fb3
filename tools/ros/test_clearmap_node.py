#!/usr/bin/env python3
"""Tests of clearmap_node.py with a real master, publishers and subscribers of ROS 1; CLEARMAP names
the built program.

Needs Debian's ros-core, python3-rospy, python3-nav-msgs, python3-map-msgs and
python3-visualization-msgs. Loopback only, and nothing is left.
"""
import math
import os
import pathlib
import queue
import socket
import subprocess
import sys
import tempfile
import time
import unittest
import xmlrpc.client

HERE = pathlib.Path(__file__).resolve().parent
sys.path[:0] = [str(HERE), str(HERE.parent), str(HERE.parent.parent / "clients/python")]

import rospy
from geometry_msgs.msg import PoseStamped
from map_msgs.msg import OccupancyGridUpdate
from nav_msgs.msg import OccupancyGrid, Path
from rosgraph_msgs.msg import Log
from sensor_msgs.msg import PointCloud2
from sensor_msgs.point_cloud2 import read_points
from std_msgs.msg import Float64
from visualization_msgs.msg import Marker

import clearmap
from served import Served, blank

WIDTH, HEIGHT, RESOLUTION = 400, 300, 0.05
PATIENCE = 30  # seconds for what a busy machine takes its time for
SOON = 1.0  # seconds that an answer may take


def free_port():
    """A port that nobody listens on."""
    with socket.create_server(("127.0.0.1", 0)) as listener:
        return listener.getsockname()[1]


def until(holds, what):
    """Waits for something, and says how long it took."""
    start = time.monotonic()
    while not holds():
        if time.monotonic() - start > PATIENCE:
            raise AssertionError(f"{what} never came")
        time.sleep(0.01)
    return time.monotonic() - start


def map_message(walls=(), width=WIDTH, height=HEIGHT, frame_id="map"):
    """A free map with a border, and walls of cells as column, row, and the first column and row
    after it, counted from the lower left."""
    cells = bytearray(width * height)
    for x0, y0, x1, y1 in ((0, 0, width, 1), (0, height - 1, width, height), (0, 0, 1, height), (width - 1, 0, width, height), *walls):
        for y in range(y0, y1):
            cells[y * width + x0 : y * width + x1] = bytes([100]) * (x1 - x0)
    message = OccupancyGrid(data=list(cells))
    message.header.frame_id = frame_id
    message.info.width, message.info.height, message.info.resolution = width, height, RESOLUTION
    message.info.origin.position.x, message.info.origin.position.y = -10.0, -7.5
    message.info.origin.orientation.w = 1.0
    return message


def plan_message(*points, frame_id="map"):
    """A plan of points in metres."""
    message = Path()
    message.header.frame_id = frame_id
    for x, y in points:
        pose = PoseStamped()
        pose.pose.position.x, pose.pose.position.y = x, y
        message.poses.append(pose)
    return message


PLAN = plan_message((-5.0, 0.02), (5.0, 0.02))  # row 150 from below; the border is 150 rows below it, and 149 above


class Running(unittest.TestCase):
    """A master for all tests, and this process as one node of it."""

    @classmethod
    def setUpClass(cls):
        cls.folder = tempfile.TemporaryDirectory()
        port = free_port()
        os.environ.update(ROS_MASTER_URI=f"http://127.0.0.1:{port}", ROS_IP="127.0.0.1", ROS_HOME=cls.folder.name, ROS_LOG_DIR=cls.folder.name)
        cls.master = subprocess.Popen(["roscore", "-p", str(port)], stdout=subprocess.DEVNULL, stderr=subprocess.DEVNULL)
        cls.addClassCleanup(cls.folder.cleanup)
        cls.addClassCleanup(cls.end, cls.master)

        def answers():
            try:
                return rospy.get_master().getPid()[0] == 1
            except OSError:
                return False

        until(answers, "the master")
        rospy.init_node("test_clearmap_node", disable_signals=True)
        cls.said, cls.clearances, cls.markers, cls.answers = (queue.Queue() for _ in range(4))
        cls.logs = rospy.Subscriber("/rosout", Log, lambda log: cls.said.put(log.msg) if log.name == "/clearmap" else None)
        cls.subscribers = [rospy.Subscriber("/clearmap/clearance", Float64, lambda number: cls.clearances.put(number.data)), rospy.Subscriber("/clearmap/tightest", Marker, cls.markers.put)]
        cls.subscribers.append(rospy.Subscriber("/clearmap/answer", PointCloud2, cls.answers.put))
        topics = (("/map", OccupancyGrid), ("/map_updates", OccupancyGridUpdate), ("/plan", Path))
        cls.publishers = [rospy.Publisher(name, kind, queue_size=100) for name, kind in topics]

    @staticmethod
    def end(process):
        process.terminate()
        process.wait(PATIENCE)

    def start(self, *words):
        """A node, once it takes what is published: the publishers of the map, of updates and of
        plans."""
        both = [*self.publishers, *self.subscribers]
        until(lambda: not any(topic.get_num_connections() for topic in both) and self.logs.get_num_connections() < 2, "the end of the node before")
        for kept in (self.said, self.clearances, self.markers, self.answers):
            while not kept.empty():
                kept.get()
        if rospy.has_param("/clearmap"):
            rospy.delete_param("/clearmap")  # the master keeps what the node before was told
        self.process = node = subprocess.Popen([sys.executable, str(HERE / "clearmap_node.py"), *words], stdout=subprocess.DEVNULL, stderr=subprocess.DEVNULL)
        self.addCleanup(self.end, node)
        until(lambda: all(topic.get_num_connections() for topic in both) and self.logs.get_num_connections() > 1, "the node")  # this process logs, too
        until(self.is_heard, "the node's own end of the connections")
        return self.publishers

    @staticmethod
    def is_heard():
        """Whether the node knows who listens to it: what it publishes before that is lost."""
        uri = rospy.get_master().lookupNode("/clearmap")[2]
        buses = xmlrpc.client.ServerProxy(uri).getBusInfo("/test_clearmap_node")[2]
        listened = {topic for _, _, way, _, topic, *_ in buses if way == "o"}
        return {"/clearmap/clearance", "/clearmap/tightest", "/clearmap/answer", "/rosout"} <= listened

    def line(self, part):
        """Waits for a line of the node's log with these words, and says how many seconds that took.
        """
        start = time.monotonic()
        while True:
            said = self.said.get(timeout=PATIENCE)
            if part in said:
                return time.monotonic() - start

    def answer(self, plans, plan):
        """The clearance of a plan and its marker, and how many seconds they took."""
        start = time.monotonic()
        plans.publish(plan)
        found = self.clearances.get(timeout=PATIENCE), self.markers.get(timeout=PATIENCE)
        return (*found, time.monotonic() - start)


class Node(Running):
    def test_a_wall_and_a_plan(self):
        maps, updates, plans = self.start()
        maps.publish(map_message())
        took = [self.line("a map, at port")]
        metres, marker, seconds = self.answer(plans, PLAN)
        self.assertAlmostEqual(metres, 99 * RESOLUTION)  # the plan ends in column 300, and the border is column 399
        took.append(seconds)
        maps.publish(map_message([(200, 160, 203, 299)]))
        took.append(self.line("cells of columns 200 to 202, rows 1 to 139"))
        metres, marker, seconds = self.answer(plans, PLAN)
        self.assertAlmostEqual(metres, 10 * RESOLUTION)
        self.assertEqual((marker.action, marker.header.frame_id), (Marker.ADD, "map"))
        self.assertAlmostEqual(marker.pose.position.x, -10 + 200.5 * RESOLUTION)
        self.assertAlmostEqual(marker.pose.position.y, -7.5 + 150.5 * RESOLUTION)
        took.append(seconds)
        update = OccupancyGridUpdate(x=250, y=155, width=2, height=3, data=[100] * 6)
        updates.publish(update)
        took.append(self.line("an update: version 2: 6 cells of columns 250 to 251, rows 142 to 144"))
        metres, marker, seconds = self.answer(plans, PLAN)
        self.assertAlmostEqual(metres, 5 * RESOLUTION)
        took.append(seconds)
        with clearmap.Client(rospy.get_param("/clearmap/server_port")) as client, client.pin() as pinned:
            self.assertEqual((pinned.version, pinned.at(250, 144).distance, pinned.at(250, 149).distance), (2, 0, 25))
        print("seconds for a map, a plan, a wall, a plan, an update, a plan: " + ", ".join(f"{seconds:.2f}" for seconds in took))
        self.assertLess(max(took), SOON * (1 if os.environ.get("STRICT") else 5))

    def test_what_is_refused(self):
        served = Served(blank(WIDTH, HEIGHT))
        self.addCleanup(served.end)
        maps, updates, plans = self.start(f"_port:={served.port}")
        metres, marker, _ = self.answer(plans, PLAN)
        self.assertTrue(math.isnan(metres))
        self.assertEqual(marker.action, Marker.DELETE)
        self.line("a plan isn't taken: no map has come yet")
        updates.publish(OccupancyGridUpdate(width=1, height=1, data=[0]))
        self.line("an update isn't taken: an update came before its map")
        maps.publish(map_message())
        self.line("a map, at port")
        maps.publish(map_message(width=200, height=100))
        self.line("a map isn't taken: the map has 200 by 100 cells, and that of the server 400 by 300: it isn't put")
        turned = map_message()
        turned.info.origin.orientation.z, turned.info.origin.orientation.w = 0.6, 0.8
        maps.publish(turned)
        self.line("a map that is turned isn't supported")
        short = map_message()
        short.data = short.data[:-1]
        maps.publish(short)
        self.line("the message has 119999 values, where 400 by 300 cells are told")
        maps.publish(map_message())
        self.line("a map, at port")
        self.assertTrue(math.isnan(self.answer(plans, plan_message((0, 0), frame_id="odom"))[0]))
        self.line("it is in the frame 'odom', and the map in 'map'")
        self.assertTrue(math.isnan(self.answer(plans, plan_message((0, 0), (50, 0)))[0]))
        self.line("the point (50.0, 0.0) isn't on the map")
        self.assertAlmostEqual(self.answer(plans, PLAN)[0], 99 * RESOLUTION)
        small = map_message(width=200, height=100)
        for wrong, said in ((small, "it isn't put"), (short, "the message has 119999 values")):
            maps.publish(wrong)
            self.line(said)
            self.assertTrue(math.isnan(self.answer(plans, PLAN)[0]))  # over a map that isn't there
            self.line("a plan isn't taken: ")
        maps.publish(map_message())
        self.line("a map, at port")
        self.assertAlmostEqual(self.answer(plans, PLAN)[0], 99 * RESOLUTION)
        updates.publish(OccupancyGridUpdate(x=399, y=0, width=2, height=1, data=[100, 100]))
        self.line("an update isn't taken: ")
        self.assertTrue(math.isnan(self.answer(plans, PLAN)[0]))
        self.line("a plan isn't taken: the last map or update wasn't taken")

    def test_a_given_server_that_ends(self):
        served = Served(blank(400, 300))
        port = served.port
        maps, _, plans = self.start(f"_port:={port}")
        maps.publish(map_message())
        self.line(f"a map, at port {port}: version 1: 1396 cells of columns 0 to 399, rows 0 to 299")
        served.end()
        self.assertTrue(math.isnan(self.answer(plans, PLAN)[0]))
        self.line("a plan isn't taken: no server at")
        self.addCleanup(Served(blank(400, 300), port=port).end)
        self.assertAlmostEqual(self.answer(plans, PLAN)[0], 99 * RESOLUTION)  # put again before
        maps.publish(map_message())
        self.line("a map, at port")
        with clearmap.Client(port) as client, client.pin() as pinned:
            self.assertEqual((pinned.version, pinned.at(0, 0).distance), (1, 0))

    def test_many_plans_at_once(self):
        """Each gets an answer that tells which plan it is of, and of which version and map."""
        maps, _, plans = self.start()
        maps.publish(self.stamped(map_message([(200, 100, 201, 200)]), 77))
        self.line("a map, at port")
        port, wanted = rospy.get_param("/clearmap/server_port"), {}
        for number in range(1, 41):
            x = -0.1 * number  # metres; the wall's middle is at 0.025
            plan = self.stamped(plan_message((x - 0.5 + 0.025, 0.02), (x + 0.025, 0.02)), number)
            if number % 10 == 0:
                plan.header.frame_id = "odom"
            plans.publish(plan)
            wanted[number] = math.nan if number % 10 == 0 else 2 * number * RESOLUTION
        told = [self.answers.get(timeout=PATIENCE) for _ in wanted]
        self.assertEqual([it.header.stamp.secs for it in told], list(wanted))
        for answer, (number, metres) in zip(told, wanted.items()):
            marker, bare = self.markers.get(timeout=PATIENCE), self.clearances.get(timeout=PATIENCE)
            self.assertEqual(marker.header.stamp.secs, number)
            (it,) = read_points(answer)
            names = [field.name for field in answer.fields]
            point = dict(zip(names, it))
            if number % 10 == 0:
                self.assertEqual((marker.action, answer.is_dense), (Marker.DELETE, False))
                self.assertTrue(all(map(math.isnan, (bare, point["metres"], point["free_metres"]))))
                continue
            self.assertAlmostEqual(bare, metres)
            self.assertEqual((point["metres"], point["version"], point["port"]), (bare, 0, port))
            self.assertLess(point["free_metres"], bare)
            self.assertEqual((point["map_secs"], point["map_nsecs"]), (77, 5))
            self.assertAlmostEqual(point["obstacle_x"], 0.025)
            self.assertAlmostEqual(point["x"], marker.pose.position.x, places=5)
            self.assertAlmostEqual(0.025 - point["x"], metres, places=5)
        numbers = [next(read_points(it, ["plan_seq"]))[0] for it in told]
        self.assertEqual(numbers, list(range(numbers[0], numbers[0] + 40)))

    @staticmethod
    def stamped(message, secs):
        """A message with a stamp."""
        message.header.stamp = rospy.Time(secs, 5)
        return message

    def test_updates_right_after_their_map(self):
        """They come over another connection, often before it: a plan in their obstacle hits it.
        Without stamps no plan is answered, unless the map has them."""
        maps, updates, plans = self.start()
        inside = plan_message((0.02, 0.02))  # column 200 of row 150
        for turn in range(1, 9):
            maps.publish(self.stamped(map_message(width=1000, height=400), 10 * turn))
            part = OccupancyGridUpdate(x=200, y=150, width=1, height=1, data=[100])
            updates.publish(self.stamped(part, 10 * turn + 1))
            self.lines("a map, at port", "an update")
            self.assertEqual(self.answer(plans, inside)[0], 0, turn)
        part = OccupancyGridUpdate(x=200, y=150, width=1, height=1, data=[0])
        updates.publish(self.stamped(part, 10 * turn - 1))  # before the map
        self.line("an update: the map was published after it")
        self.assertEqual(self.answer(plans, inside)[0], 0)
        part = OccupancyGridUpdate(x=200, y=150, width=1, height=1, data=[100])
        for cells, is_told in (([], False), ([(200, 150, 201, 151)], True)):
            updates.publish(part)
            self.line("an update")
            maps.publish(map_message(cells, width=1000, height=400))
            self.line("a map, at port" if is_told else "no plan is answered up to the next map")
            metres = self.answer(plans, inside)[0]
            self.assertTrue(metres == 0 if is_told else math.isnan(metres), metres)

    def lines(self, *parts):
        """Waits for lines of the log with these words, in any order."""
        left = list(parts)
        while left:
            said = self.said.get(timeout=PATIENCE)
            left = [part for part in left if part not in said]

    def test_a_map_that_grows(self):
        """The node's own server is started anew with it."""
        maps, updates, plans = self.start()
        maps.publish(map_message())
        self.line("a map, at port")
        for width, height in ((500, 400), (300, 350), (4000, 20)):
            maps.publish(map_message(width=width, height=height))
            self.line("a map, at port")
            with clearmap.Client(rospy.get_param("/clearmap/server_port")) as client:
                self.assertEqual(client.size, (width, height))
            x, y = -10 + 0.5 * width * RESOLUTION + 0.01, -7.5 + 5.5 * RESOLUTION
            metres = self.answer(plans, plan_message((x, y)))[0]
            self.assertAlmostEqual(metres, 5 * RESOLUTION)

    def test_the_node_is_killed(self):
        """Its own server ends with it."""
        maps, _, _ = self.start()
        maps.publish(map_message())
        self.line("a map, at port")
        port = rospy.get_param("/clearmap/server_port")
        clearmap.Client(port).close()
        self.process.kill()
        self.process.wait(PATIENCE)

        def is_gone():
            try:
                clearmap.Client(port).close()
            except clearmap.ConnectionLost:
                return True
            return False

        until(is_gone, "the end of the server")

    def test_one_warning(self):
        """The same refusal of many plans is one line of the log."""
        maps, _, plans = self.start()
        maps.publish(map_message())
        self.line("a map, at port")
        for number in range(30):
            plans.publish(plan_message((50.5 + number, 0)))
        for _ in range(30):
            self.assertTrue(math.isnan(self.clearances.get(timeout=PATIENCE)))
        self.assertAlmostEqual(self.answer(plans, PLAN)[0], 99 * RESOLUTION)
        maps.publish(map_message())
        said = []
        while not said or "a map, at port" not in said[-1]:
            said.append(self.said.get(timeout=PATIENCE))
        refused = [line for line in said if "a plan isn't taken" in line]
        self.assertEqual(refused, ["a plan isn't taken: the point (50.5, 0.0) isn't on the map"])

    def test_parameters_that_are_none(self):
        started = []
        for word, sentence in (
            ("_port:=70000", "'70000' is no port"), ("_port:=true", "'True' is no port"),
            ("_port:=74x", "'74x' is no port"), ("_edge:=walls", "'walls' is no edge"),
            ("_robot_radius:=0,22", "'0,22' is no number"), ("_distance_points:=true", "'True' is no d"),
            ("_publish_frequency:=true", "'True' is no publish_frequency"),
        ):  # fmt: skip
            words = [sys.executable, str(HERE / "clearmap_node.py"), f"__name:=none{len(started)}", word]
            pipes = {"stdout": subprocess.PIPE, "stderr": subprocess.STDOUT}
            started.append((subprocess.Popen(words, text=True, **pipes), sentence))
        for node, sentence in started:
            self.assertIn(sentence, node.communicate(timeout=PATIENCE)[0])
            self.assertEqual(node.returncode, 1, sentence)


if __name__ == "__main__":
    unittest.main(warnings="ignore")
