#!/usr/bin/env python3
"""How far a plan in metres keeps from the obstacles of a served map, which is the yaml's.

    plan.py MAP.yaml PORT, with a point X Y on each line of standard input
"""
import math
import pathlib
import sys

top = pathlib.Path(__file__).resolve().parent.parent
sys.path[:0] = [str(top / "clients/python"), str(top / "python")]  # here, and installed
import clearmap
from clearmap.frames import pieces


def main(yaml, port):
    frame = clearmap.read_map(yaml).frame
    path = frame.staircase(clearmap.read_plan(sys.stdin))
    with clearmap.Client(int(port), size=frame.size) as client, client.pin() as pinned:
        found = [pinned.path(piece) for piece in pieces(path)]
    if None in found:
        return print("the map has no obstacle")
    tightest = min(found, key=lambda it: it.distance)
    x, y = frame.centre(tightest.cell)
    metres, free = frame.metres(tightest.distance), frame.free_metres(tightest.distance)
    free = math.floor(free * 1000) / 1000  # down: a robot may need it all
    print(f"{metres:.3f} m at ({x:.3f}, {y:.3f}), and {free:.3f} m free in any case")


if len(sys.argv) != 3 or not sys.argv[2].isdecimal():
    sys.exit("plan.py: name the map and the server's port: plan.py MAP.yaml PORT")
try:
    main(*sys.argv[1:])
except (clearmap.ClearmapError, OverflowError, ValueError) as fault:
    sys.exit(f"plan.py: {fault}")
