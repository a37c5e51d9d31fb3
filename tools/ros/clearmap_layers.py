"""The newest version of a server as topics of ROS 1: the map, a costmap, distances and the
version's number. Nothing here is proved."""
from typing import Any, Dict

from clearmap_costmap import Inflation
from clearmap_feed import Feed
from clearmap_follow import Follower, Shown, pause_of
from clearmap_messages import LAYERS, Kinds, Painter
from clearmap.runs import no_library

FREQUENCY = 5.0  # looks a second


def painter_of(rospy: Any, unknown_is_free: bool) -> Painter:
    """What makes the messages, by the parameters of this node."""
    from nav_msgs.msg import OccupancyGrid
    from sensor_msgs.msg import PointCloud2, PointField
    from std_msgs.msg import UInt64

    usual = Inflation()
    names = ("robot_radius", "inflation_radius", "cost_scaling_factor")
    inflation = Inflation(*(rospy.get_param("~" + name, getattr(usual, name)) for name in names))
    kinds = Kinds(OccupancyGrid, PointCloud2, PointField, UInt64, rospy.Time)
    points = rospy.get_param("~distance_points", Painter.points)
    return Painter(kinds, inflation, unknown_is_free, points)


class Layers:
    """The topics of versions, each of which is latched."""

    def __init__(self, rospy: Any, feed: Feed, unknown_is_free: bool) -> None:
        self.rospy, self.feed = rospy, feed
        self.painter = painter_of(rospy, unknown_is_free)
        kinds: Dict[str, Any] = vars(self.painter.kinds)
        self.publishers = [
            rospy.Publisher("~" + name, kinds[kind], queue_size=1, latch=True)
            for name, kind in LAYERS
        ]
        pause = pause_of(rospy.get_param("~publish_frequency", FREQUENCY))
        self.follower = Follower(feed, pause, self.show, lambda said: rospy.logwarn("%s", said))
        rospy.on_shutdown(self.follower.stop)

    def start(self) -> None:
        """Begins to follow the server."""
        why = no_library()
        if why:
            words = "each version takes a run of %s: %s"
            self.rospy.logwarn(words, self.feed.program, why)
        self.follower.start()

    def show(self, shown: Shown) -> None:
        """Publishes a version, its number last: who reads that was sent the others."""
        rospy = self.rospy
        layers = self.painter.layers(shown, rospy.Time.now())
        if rospy.is_shutdown():
            return
        rospy.set_param("~server_port", self.feed.port)
        for publisher, message in zip(self.publishers, layers):
            publisher.publish(message)
        rospy.loginfo("version %d at port %d is published", shown.version, self.feed.port)
