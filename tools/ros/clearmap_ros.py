#!/usr/bin/env python3
"""Maps, plans and radii of ROS for clearmap: metres to cells and back. Python 3.9 or later, only
the standard library, but that an image which is no PGM wants Debian's python3-pil, and a clearance
python3-numpy and the library. Nothing here is proved.

What it computes is the package's, in the modules `frames`, `ros_maps` and `plans`.
"""
import argparse
import math
import pathlib
import sys
from fractions import Fraction
from typing import Iterator, List, Sequence

HERE = pathlib.Path(__file__).resolve().parent
FOLDERS = (HERE.parent.parent / "clients/python", HERE.parent / "python")
sys.path[:0] = [str(folder) for folder in FOLDERS if folder.is_dir()]

from clearmap import OPEN, WALL, Frame, RosError, clear_distance, plan_clearance, read_map
from clearmap import RosMap as Map
from clearmap import read_plan, read_poses
from clearmap.decimals import Number, exact, float_below, root_below
from clearmap.frames import Point, pieces, query_lines
from clearmap.gray import Gray, read_image, read_pgm
from clearmap.requests import METRICS
from clearmap.ros_maps import obstacles, value_of
from clearmap.settings import MODES, Settings, read_settings
from clearmap.stairs import corners

__all__ = [
    "MODES", "Frame", "Gray", "Map", "Number", "Point", "RosError", "Settings", "clear_distance",
    "corners", "exact", "obstacles", "pbm", "pieces", "query_lines", "read_image", "read_map",
    "read_pgm", "read_plan", "read_settings", "root_below", "value_of",
]  # fmt: skip


def pbm(rows: Sequence[Sequence[bool]]) -> bytes:
    """A raw PBM image whose black pixels are the obstacles."""
    width = len(rows[0])
    packed = bytearray()
    for row in rows:
        bits = "".join("1" if black else "0" for black in row).ljust((width + 7) // 8 * 8, "0")
        packed += int(bits, 2).to_bytes(len(bits) // 8, "big")
    return b"P4\n%d %d\n" % (width, len(rows)) + bytes(packed)


# ---- the command line


def down(metres: float) -> str:
    """Metres that were rounded down to a float, with six digits after the point, rounded down; the
    next decimal where its float is the same."""
    if metres == math.inf:
        return "inf"
    micrometres = math.floor(Fraction(metres) * 10**6)
    if float_below(Fraction(micrometres + 1, 10**6)) == metres:
        micrometres += 1
    return f"{micrometres // 10**6}.{micrometres % 10**6:06d}"


def near(frame: Frame, cell: Sequence[int]) -> str:
    """Where an obstacle is, in metres."""
    return "the obstacle at (%.12g, %.12g)" % frame.middle((cell[0], cell[1]))


def outline(text: str) -> List[Point]:
    """The points of a footprint: X,Y in metres, with blanks between them."""
    points = [word.split(",") for word in text.split()]
    if not all(len(point) == 2 for point in points):
        raise RosError(f"'{text}' isn't the points of a footprint, as '0.3,0.2 -0.3,0.2 -0.3,-0.2'")
    return [(point[0], point[1]) for point in points]


def clearance(options: argparse.Namespace) -> Iterator[str]:
    """The line of a plan's clearance, or of a footprint's along poses."""
    ros_map = read_map(options.map)
    frame, area = ros_map.frame, ros_map.map(options.edge, unknown_is_free=options.unknown_is_free)
    if options.footprint is None:
        plan = read_plan(sys.stdin or ())
        found = plan_clearance(area, frame, plan, 0 if options.radius is None else options.radius)
        if found is None:
            yield "inf: the map has no obstacle"
            return
        points = f"between points {found.segment + 1} and {found.segment + 2}"
        where = points if len(plan) > 1 else "at the point"
        yield f"{down(found.clearance)} m free {where}, by {near(frame, found.obstacle)}"
        return
    try:
        robot = frame.footprint(outline(options.footprint))
    except ValueError as fault:
        raise RosError(str(fault)) from None
    poses = read_poses(sys.stdin or ())
    if not poses:
        raise RosError("the plan has no pose")
    free, pose = robot.clearance_along(area, poses)
    yield f"{down(free)} m free at (%.6f, %.6f), turned by %.6f" % pose


def answer(options: argparse.Namespace) -> Iterator[str]:
    """The lines of a command's answer."""
    frame = read_map(options.map).frame
    if options.command == "cell":
        yield "%d %d" % frame.cell((options.x, options.y))
    elif options.command == "centre":
        yield "%.12g %.12g" % frame.centre((options.x, options.y))
    elif options.command == "metres":
        yield f"{down(frame.metres(options.square))} from middle to middle"
        yield f"{down(frame.free_metres(options.square))} free in any case"
    elif options.command == "radius":
        for metric in METRICS:
            safe, centres = (clear_distance(options.metres, frame.resolution, metric, whole) for whole in (True, False))
            yield f"{metric} {safe} against whole cells (safe), {centres} from middle to middle"
    else:
        path = frame.staircase(read_plan(sys.stdin or ()))
        command = "PATH euclid2" if options.radius is None else f"CLEAROF euclid2 {clear_distance(options.radius, frame.resolution)}"
        yield from query_lines(command, path)


def whole(word: str) -> int:
    """A whole number of the command line: digits alone, where int takes more."""
    if not (word.isascii() and word.removeprefix("-").isdecimal()):
        raise argparse.ArgumentTypeError(f"'{word}' is no whole number")
    return int(word)


def parser() -> argparse.ArgumentParser:
    """The command line."""
    top = argparse.ArgumentParser(prog="clearmap-ros", description="Maps and plans of ROS for clearmap: map.yaml and its image to PBM, metres to cells and back.")
    commands = top.add_subparsers(dest="command", required=True)

    def add(name: str, text: str) -> argparse.ArgumentParser:
        command = commands.add_parser(name, help=text, description=text)
        command.add_argument("map", help="the map's yaml file")
        return command

    add("pbm", "write the map as PBM; unknown cells are obstacles").add_argument("--unknown-is-free", action="store_true", help="unknown cells are free, which isn't safe for a planner")
    for name, text in (("cell", "the cell of a point in metres"), ("centre", "the middle of a cell, in metres")):
        command = add(name, text)
        command.add_argument("x", type=str if name == "cell" else whole, help="metres to the right" if name == "cell" else "the column")
        command.add_argument("y", type=str if name == "cell" else whole, help="metres upwards" if name == "cell" else "the row, from the top")
    add("metres", "a euclid2 distance in metres").add_argument("square", type=whole, help="the distance, a square in cells")
    add("radius", "the d of CLEAROF for a robot's radius in metres").add_argument("metres", help="the radius")
    add("path", "query lines along a plan: X Y in metres, a point a line, on standard input").add_argument("--radius", help="ask by CLEAROF for a robot of this radius in metres, against whole cells")
    add_clearance(add("clearance", "how far a plan keeps from obstacles: X Y in metres, a point a line, on standard input"))
    return top


def add_clearance(command: argparse.ArgumentParser) -> None:
    """What `clearance` takes."""
    robot = command.add_mutually_exclusive_group()
    robot.add_argument("--radius", help="of a robot of this radius in metres")
    robot.add_argument("--footprint", help="of a robot of this convex outline, 'X,Y X,Y ..' in metres, x forward and y to the left; the plan's lines are poses, X Y THETA")
    command.add_argument("--edge", choices=(OPEN, WALL), default=OPEN, help="whether the cells around the map are free, or a wall")
    command.add_argument("--unknown-is-free", action="store_true", help="unknown cells are free, which isn't safe for a planner")


def main() -> int:
    """Runs a command. Status 1 if the map or a number is refused, with one line on standard error.
    """
    options = parser().parse_args()
    try:
        if options.command == "pbm":
            ros_map = read_map(options.map)
            sys.stdout.buffer.write(pbm(obstacles(ros_map.image, ros_map.settings, options.unknown_is_free)))
            sys.stdout.buffer.flush()
        else:
            said = clearance if options.command == "clearance" else answer
            print("\n".join(said(options)), flush=True)
    except (RosError, OSError, ImportError) as fault:
        print(f"clearmap-ros: {fault}", file=sys.stderr)
        return 1
    return 0


if __name__ == "__main__":
    sys.exit(main())
