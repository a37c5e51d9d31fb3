#!/usr/bin/env python3
"""A node of ROS: puts the map of a topic on a clearmap server, or takes a server's as it is,
answers how far plans keep from its obstacles, and publishes each version as a costmap and as
distances.

    clearmap-ros-node [_port:=7400] [map:=/map] [plan:=/move_base/NavfnROS/plan]
    clearmap-ros-node _yaml:=map.yaml [_port:=7400]

Needs rospy of ROS 1 and numpy; nothing here is proved.
"""
import argparse
import math
import os
import pathlib
import shutil
import sys
import threading
import traceback

HERE = pathlib.Path(__file__).resolve().parent
TOP = HERE.parent.parent
FOLDERS = (HERE, TOP / "clients/python", HERE.parent / "python")
sys.path[:0] = [str(folder) for folder in FOLDERS if folder.is_dir()]

import clearmap
import clearmap_grid as grids
from clearmap_feed import Feed, edge_of, port_of, sentence_of
from clearmap_grid import Place
from clearmap_order import LOST, MAP, MOST_PLANS, UPDATE, Order, Update, Waiting
from clearmap import RosError


def program() -> str:
    """The program that serves: the one that CLEARMAP names, this repository's, the one installed
    with this node, or that on the path."""
    built = (TOP / "crates/clearmap/out/clearmap", HERE.parent.parent.parent / "bin/clearmap")
    found = [str(path) for path in built if os.access(path, os.X_OK)]
    return os.environ.get("CLEARMAP") or (found[0] if found else shutil.which("clearmap") or "clearmap")


TOPICS = """It takes these topics, which may be named otherwise as usual (map:=/robot/map):

  map          nav_msgs/OccupancyGrid: the map, and no costmap, whose obstacles are inflated
               already; what changed is stamped and published
  map_updates  map_msgs/OccupancyGridUpdate: a part of the last map; the stamps tell which of the
               two is newer, and where they don't, plans get NaN up to the next map
  plan         nav_msgs/Path: a plan in the map's frame, in metres

and publishes these for each plan, in their order (of over 100 that wait the oldest get none):

  ~clearance  std_msgs/Float64: metres from the middle of the plan's tightest cell to that of its
              nearest obstacle; infinite where the map has no obstacle, and NaN where a plan isn't
              taken. Ask so that NaN doesn't pass: clearance >= 0.3, and never clearance < 0.3
  ~answer     sensor_msgs/PointCloud2: the same with what it is of, as one point: x, y and z of that
              cell, metres, free_metres (between any points of the two cells), obstacle_x and
              obstacle_y, version, port (the server's), map_secs and map_nsecs (the newest stamp of
              map and updates), and plan_seq; the header has the stamp and the frame of the plan
  ~tightest   visualization_msgs/Marker: a ball at that cell, with the plan's stamp; it is taken
              away where a plan isn't taken

and these, latched, for each new version of the server, whoever published it:

  ~map       nav_msgs/OccupancyGrid: the served map: 100 in an obstacle, else 0, and -1 in a cell
             that the topic's or the yaml's map doesn't know and nobody has changed
  ~costmap   nav_msgs/OccupancyGrid: the same inflated, with the values of costmap_2d: 99 within
             robot_radius of an obstacle, from middle to middle, then 98 to 1 by
             exp(-cost_scaling_factor * (distance - robot_radius)), and 0 beyond inflation_radius,
             which is rounded up to whole cells
  ~distance  sensor_msgs/PointCloud2: the middles of free cells, each with its distance in metres,
             from middle to middle, as intensity
  ~version   std_msgs/UInt64: the version's number, which comes last; the maps tell it as the whole
             seconds of info.map_load_time, and all of a version have one stamp

Its parameters:

  ~port                 the server's port; 0, which is the default, starts a server with the first
                        map, whose port is ~server_port
  ~yaml                 a map.yaml: where the served map lies, and what a server of the node's own
                        starts with; a server that was given keeps its map, and no topic is taken
                        for one
  ~frame_id             map: the frame of the yaml's map; that of a topic is its header's
  ~edge                 open; with wall the cells round the map are obstacles, on a server of the
                        node's own
  ~occupied_thresh      0.65: a cell of the topic above it, as 66 to 100, is an obstacle
  ~free_thresh          0.196: a cell of the topic below it, as 0 to 19, is free, and one between
                        the two is unknown, as in a map.yaml
  ~unknown_is_free      false: unknown cells are obstacles, which is the safe choice
  ~free_in_any_case     false: with true the clearance is the least one between any points of the
                        two cells
  ~checkpoints          false: with true a full log of a server that was given is emptied
  ~robot_radius         0.46, in metres
  ~inflation_radius     0.55, in metres, not below robot_radius
  ~cost_scaling_factor  10.0, for each metre
  ~publish_frequency    5.0: how often in a second a newer version is looked for, up to 50
  ~distance_points      250000: of a map with more cells each second, third .. column and row is in
                        ~distance"""


def parser() -> argparse.ArgumentParser:
    """The command line; the parameters and names of ROS are read by rospy."""
    about = "Puts the map of a topic of ROS 1 on a clearmap server, or takes the one of a server,"
    about += " answers how far plans keep from its obstacles, and publishes each version as a"
    about += " costmap and as distances."
    usage = "clearmap-ros-node [_port:=PORT] [_yaml:=MAP.YAML] [_NAME:=VALUE ..] [TOPIC:=NAME ..]"
    words = argparse.ArgumentParser(prog="clearmap-ros-node", usage=usage, description=about)
    words.epilog, words.formatter_class = TOPICS, argparse.RawDescriptionHelpFormatter
    return words


class Node:
    """The topics of one map. What comes waits in one queue for one thread, which takes maps and
    updates before the plans that came with them."""

    def __init__(self, rospy: object) -> None:
        from map_msgs.msg import OccupancyGridUpdate
        from nav_msgs.msg import OccupancyGrid, Path
        from sensor_msgs.msg import PointCloud2
        from std_msgs.msg import Float64
        from visualization_msgs.msg import Marker

        from clearmap_answers import Quiet, answer_of
        from clearmap_layers import Layers

        self.rospy, self.number, self.marker, self.answer_of = rospy, Float64, Marker, answer_of
        names = (("occupied_thresh", 0.65), ("free_thresh", 0.196), ("unknown_is_free", False))
        reading = grids.Reading(*(rospy.get_param("~" + name, value) for name, value in names))
        self.table = reading.table()
        self.safe = self.flag("free_in_any_case")
        port, edge = port_of(rospy.get_param("~port", 0)), edge_of(rospy.get_param("~edge", "open"))
        self.feed = Feed(port, program(), self.flag("checkpoints"), edge)
        self.layers = Layers(rospy, self.feed, reading.unknown_is_free)
        self.order, self.waiting = Order(), Waiting()
        self.taking = {MAP: self.take_map, UPDATE: self.take_update, LOST: self.take_loss}
        self.refusals = Quiet(lambda said: rospy.logwarn("a plan isn't taken: %s", said))
        yaml = str(rospy.get_param("~yaml", ""))
        if yaml:
            frame_id = str(rospy.get_param("~frame_id", "map"))
            self.feed.keep(*grids.read_place(yaml, frame_id, reading.unknown_is_free))
        self.clearances = rospy.Publisher("~clearance", Float64, queue_size=MOST_PLANS)
        self.answers = rospy.Publisher("~answer", PointCloud2, queue_size=MOST_PLANS)
        self.markers = rospy.Publisher("~tightest", Marker, queue_size=MOST_PLANS, latch=True)
        rospy.on_shutdown(self.feed.close)
        self.layers.start()
        threading.Thread(target=self.work, name="clearmap takes", daemon=True).start()
        if not yaml:
            rospy.Subscriber("map_updates", OccupancyGridUpdate, self.put_update)
            rospy.Subscriber("map", OccupancyGrid, self.waiting.put_map, buff_size=2**25)
        rospy.Subscriber("plan", Path, self.waiting.put_plan)

    def work(self) -> None:
        """Takes what came, again and again: maps and updates, and then plans."""
        while True:
            said, plans = self.waiting.taken()
            for kind, message in said:
                self.guarded(self.taking[kind], message)
            self.guarded(self.take_plans, plans)

    def guarded(self, take, message: object) -> None:
        """Takes what a topic said, and logs a fault that nobody expects."""
        try:
            take(message)
        except Exception:
            if not self.rospy.is_shutdown():
                self.rospy.logerr("%s", traceback.format_exc())

    def put_update(self, message: object) -> None:
        """Has an update wait, with a byte for each value, since many may wait."""
        try:
            message.data = grids.bytes_of(message.data)
        finally:
            self.waiting.put_update(message)

    @property
    def frame_id(self) -> str:
        """The frame of the last map."""
        return self.feed.place.frame_id if self.feed.place is not None else ""

    def flag(self, name: str) -> bool:
        """A parameter that is false unless it is set."""
        return grids.flag(name, self.rospy.get_param("~" + name, False))

    def told(self, what: str, call) -> object:
        """What a call gives, or None and one line of the log. After a fault that nobody expects no
        plan is answered up to the next map."""
        try:
            return call()
        except clearmap.ClearmapError as fault:
            self.rospy.logwarn("%s isn't taken: %s", what, fault)
            return None
        except Exception:
            self.feed.refuse()
            raise

    def read(self, parse) -> object:
        """What a message says. After one that can't be read no plan is answered up to the next map.
        """
        try:
            return parse()
        except RosError:
            self.feed.refuse()
            raise

    def take_map(self, message: object) -> None:
        """Puts a map."""
        info = message.info
        width, height = info.width, info.height
        at, turn = info.origin.position, info.origin.orientation

        def parse() -> object:
            frame = grids.frame_of(width, height, info.resolution, (at.x, at.y), (turn.x, turn.y, turn.z))
            both = grids.read_cells(message.data, width, height, self.table)
            cells, unknown = (grids.Grid(width, height, it) for it in both)
            return cells, Place(frame, message.header.frame_id, unknown)

        said = self.told("a map", lambda: self.put(message.header.stamp.to_nsec(), *self.read(parse)))
        if said is not None:
            self.layers.follower.wake()
            self.rospy.set_param("~server_port", self.feed.port)
            self.rospy.loginfo("a map, at port %d: %s", self.feed.port, said)

    def put(self, stamp: int, cells: object, place: Place) -> str:
        """Puts a map with each update that came before it and is newer. Where that can't be told,
        no plan is answered up to the next map."""
        *newest, doubt = self.order.with_newer(stamp, cells, place)
        try:
            return self.feed.put(*newest)
        finally:
            if doubt:
                self.feed.refuse()
                self.rospy.logwarn("no plan is answered up to the next map: of this one, %s", doubt)

    def take_update(self, message: object) -> None:
        """Puts an update of the map."""
        corner, size = (message.x, message.y), (message.width, message.height)

        def parse() -> Update:
            cells = grids.read_cells(message.data, *size, self.table)
            return Update(message.header.stamp.to_nsec(), corner, size, *cells)

        def put() -> str:
            update = self.read(parse)
            if self.read(lambda: self.order.is_in_map(update)):
                return "the map was published after it"
            return self.feed.update(*corner, size, update.cells, update.unknown)

        said = self.told("an update", put)
        if said is not None:
            self.layers.follower.wake()
            self.rospy.loginfo("an update: %s", said)

    def take_loss(self, _: object) -> None:
        """Takes note of updates that came too fast."""
        self.feed.refuse()
        self.rospy.logwarn("too many updates waited: no plan is answered up to the next map")

    def take_plans(self, plans: list) -> None:
        """Answers plans. One that can't be asked about gets NaN, so that nobody goes on with an
        older answer; so do those that waited for a server which doesn't reply."""
        fault = None
        for plan in plans:
            found = None
            try:
                if not isinstance(fault, clearmap.TimedOut):
                    found, fault = self.clearance(plan), None
            except Exception as why:
                fault = why
                self.refusals.say(sentence_of(fault))
            finally:
                self.answer(plan, found)

    def clearance(self, plan: object) -> object:
        """How far a plan keeps from obstacles."""
        points = [(pose.pose.position.x, pose.pose.position.y) for pose in plan.poses]
        found = self.feed.clearance(points, plan.header.frame_id)
        self.refusals.forget()
        return found

    def answer(self, plan: object, found: object) -> None:
        """Publishes what was found of a plan, None if it isn't taken."""
        port, stamp = self.feed.port, self.order.newest
        said = self.answer_of(self.layers.painter.kinds, plan, found, port, stamp)
        metres = math.nan if found is None else found.free_metres if self.safe else found.metres
        self.answers.publish(said)
        self.clearances.publish(self.number(metres))
        self.markers.publish(self.mark(plan.header.stamp, found))

    def mark(self, stamp: object, found: object) -> object:
        """A ball at the tightest cell, two cells wide; none if there is no such cell."""
        marker = self.marker()
        marker.header.frame_id, marker.header.stamp, marker.ns = self.frame_id, stamp, "clearmap"
        marker.type, marker.action = self.marker.SPHERE, self.marker.DELETE
        marker.pose.orientation.w = 1.0
        if found is not None and found.cell is not None:
            marker.action = self.marker.ADD
            marker.pose.position.x, marker.pose.position.y = found.cell
            marker.scale.x = marker.scale.y = marker.scale.z = 2 * float(self.feed.frame.resolution)
            marker.color.r, marker.color.g, marker.color.a = 0.82, 0.14, 1.0
        return marker


def main() -> int:
    """Runs until the master, or a signal, ends it. Status 1 if something isn't installed, or a
    parameter is refused, with one line on standard error."""
    parser().parse_args([word for word in sys.argv[1:] if ":=" not in word])
    try:
        import rospy
    except ModuleNotFoundError:
        print(f"clearmap-ros-node: {sys.executable} has no rospy: it comes with ROS 1, as Debian's python3-rospy", file=sys.stderr)
        return 1
    try:
        rospy.init_node("clearmap")
        Node(rospy)
    except rospy.ROSException as fault:
        print(f"clearmap-ros-node: there is no master to go on with: {fault}", file=sys.stderr)
        return 1
    except ModuleNotFoundError as missing:
        packages = ("numpy", "nav-msgs", "map-msgs", "sensor-msgs", "visualization-msgs")
        named = ", ".join("python3-" + package for package in packages)
        rospy.logfatal("%s isn't installed: Debian has %s", missing.name, named)
        return 1
    except RosError as fault:
        rospy.logfatal("%s", fault)
        return 1
    rospy.spin()
    return 0


if __name__ == "__main__":
    sys.exit(main())
