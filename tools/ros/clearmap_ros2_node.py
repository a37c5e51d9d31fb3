#!/usr/bin/env python3
"""A node of ROS 2, tried only with stand-ins for rclpy: it never ran with ROS 2 itself.

    clearmap_ros2_node.py --ros-args -p yaml:=map.yaml -p port:=7400 -r plan:=/plan

It publishes each version of a clearmap server as clearmap-ros-node does, by the same parameters and
under the same names, and the clearance of plans. The map is that of the yaml; none is taken from a
topic. Nothing here is proved.
"""
import math
import pathlib
import sys
from typing import Any, Optional

HERE = pathlib.Path(__file__).resolve().parent
TOP = HERE.parent.parent
FOLDERS = (HERE, TOP / "clients/python", HERE.parent / "python")
sys.path[:0] = [str(folder) for folder in FOLDERS if folder.is_dir()]

try:
    import rclpy
    from builtin_interfaces.msg import Time
    from nav_msgs.msg import OccupancyGrid, Path
    from rclpy.executors import ExternalShutdownException
    from rclpy.node import Node
    from rclpy.qos import DurabilityPolicy, QoSProfile
    from sensor_msgs.msg import PointCloud2, PointField
    from std_msgs.msg import Float64, UInt64
except ModuleNotFoundError as missing:
    if __name__ != "__main__":
        raise
    said = f"{sys.executable} has no {missing.name}: it comes with ROS 2"
    sys.exit(f"clearmap_ros2_node.py: {said}")

import clearmap_grid as grids
from clearmap_answers import Quiet, answer_of
from clearmap_costmap import Inflation
from clearmap_feed import Clearance, Feed, edge_of, port_of, sentence_of
from clearmap_follow import Follower, Shown, pause_of
from clearmap_messages import LAYERS, Kinds, Painter
from clearmap_node import program
from clearmap_order import MOST_PLANS
from clearmap import RosError

KINDS = Kinds(OccupancyGrid, PointCloud2, PointField, UInt64, lambda seconds: Time(sec=seconds))


class ClearmapNode(Node):  # type: ignore[misc]
    """The topics of one map."""

    def __init__(self) -> None:
        super().__init__("clearmap")
        latched = QoSProfile(depth=1, durability=DurabilityPolicy.TRANSIENT_LOCAL)
        self.layers = [
            self.create_publisher(getattr(KINDS, kind), "~/" + name, latched)
            for name, kind in LAYERS
        ]
        is_free = grids.flag("unknown_is_free", self.value("unknown_is_free", False))
        self.painter = self.painter_of(is_free)
        self.is_safe = grids.flag("free_in_any_case", self.value("free_in_any_case", False))
        port, edge = port_of(self.value("port", 0)), edge_of(self.value("edge", "open"))
        self.feed = Feed(port, program(), edge=edge)
        self.keep(self.value("yaml", ""), is_free)
        self.clearances = self.create_publisher(Float64, "~/clearance", MOST_PLANS)
        self.answers = self.create_publisher(PointCloud2, "~/answer", MOST_PLANS)
        self.refusals = Quiet(lambda said: self.get_logger().warning(f"a plan isn't taken: {said}"))
        self.create_subscription(Path, "plan", self.take_plan, MOST_PLANS)
        pause = pause_of(self.value("publish_frequency", 5.0))
        self.follower = Follower(self.feed, pause, self.show, self.get_logger().warning)

    def value(self, name: str, default: Any) -> Any:
        """A parameter."""
        return self.declare_parameter(name, default).value

    def painter_of(self, is_free: bool) -> Painter:
        """What makes the messages."""
        usual = Inflation()
        names = ("robot_radius", "inflation_radius", "cost_scaling_factor")
        inflation = Inflation(*(self.value(name, getattr(usual, name)) for name in names))
        return Painter(KINDS, inflation, is_free, self.value("distance_points", Painter.points))

    def keep(self, yaml: str, is_free: bool) -> None:
        """Takes the yaml's map for where the served one lies."""
        if not yaml:
            raise RosError("there is no yaml: -p yaml:=map.yaml")
        frame_id = self.value("frame_id", "map")
        self.feed.keep(*grids.read_place(yaml, frame_id, is_free))

    def show(self, shown: Shown) -> None:
        """Publishes a version, its number last."""
        layers = self.painter.layers(shown, self.get_clock().now().to_msg())
        for publisher, message in zip(self.layers, layers):
            publisher.publish(message)
        said = f"version {shown.version} at port {self.feed.port} is published"
        self.get_logger().info(said)

    def take_plan(self, message: Any) -> None:
        """Answers a plan's clearance; NaN if it isn't taken."""
        found = None
        try:
            found = self.clearance(message)
            self.refusals.forget()
        except Exception as fault:
            self.refusals.say(sentence_of(fault))
        self.answers.publish(answer_of(KINDS, message, found, self.feed.port))
        self.clearances.publish(Float64(data=self.metres(found)))

    def clearance(self, message: Any) -> Clearance:
        """How far a plan keeps from obstacles."""
        points = [(pose.pose.position.x, pose.pose.position.y) for pose in message.poses]
        return self.feed.clearance(points, message.header.frame_id)

    def metres(self, found: Optional[Clearance]) -> float:
        """Metres from the plan's tightest cell to its nearest obstacle: from middle to middle, or
        with `free_in_any_case` between any points of the two cells."""
        if found is None:
            return math.nan
        return found.free_metres if self.is_safe else found.metres

    def end(self) -> None:
        """Leaves the server, and ends one of the node's own."""
        self.follower.stop()
        self.feed.close()


def main() -> int:
    """Runs until a signal ends it. Status 1 if a parameter is refused."""
    rclpy.init(args=sys.argv)
    try:
        node = ClearmapNode()
    except RosError as fault:
        print(f"clearmap_ros2_node.py: {fault}", file=sys.stderr)
        return 1
    try:
        node.follower.start()
        rclpy.spin(node)
    except (KeyboardInterrupt, ExternalShutdownException):
        pass
    finally:
        node.end()
    return 0


if __name__ == "__main__":
    sys.exit(main())
