#!/usr/bin/python3
"""Times footprints: builds footprints.cpp and runs it, and the client in Python on the same maps, a
floor plan and random cells of 1024 by 1024. Needs g++, numpy and the built library. Nanoseconds per
pose, the least of some rounds; of `hits_many` 100,000 poses in a call."""
import argparse
import pathlib
import random
import subprocess
import sys
import tempfile
import time

HERE = pathlib.Path(__file__).resolve().parent
TOP = HERE.parent.parent
sys.path.append(str(TOP / "clients/python"))
sys.dont_write_bytecode = True

import clearmap
import numpy as np
from bench import SEED, at_random, floor_plan

SIDE = 1024
MAPS = (("floor plan", floor_plan), ("0.1 %", at_random(0.001)), ("1 %", at_random(0.01)))
SHAPES = {
    "rectangle of 12 by 8": [(-6, -4), (6, -4), (6, 4), (-6, 4)],
    "rectangle of 40 by 20": [(-20, -10), (20, -10), (20, 10), (-20, 10)],
}


def built(folder):
    """The program in C++."""
    program = folder / "footprints"
    flags = ["-std=c++17", "-O2", "-pthread", "-I", TOP / "clients/c", "-I", TOP / "clients/cpp"]
    library = TOP / "crates/libclearmap/out/libclearmap.a"
    subprocess.run(
        ["g++", *flags, "-o", program, HERE / "footprints.cpp", library], check=True
    )
    return program


def least(rounds, count, call):
    """The least time of a call, in nanoseconds for each of `count`."""
    times = []
    for _ in range(rounds):
        start = time.perf_counter()
        call()
        times.append(time.perf_counter() - start)
    return min(times) / count * 1e9


def by_python(bitmap, rounds):
    """The same footprints in Python."""
    rows = np.frombuffer(bytes(bitmap.rows), np.uint8).reshape(SIDE, -1)
    area = clearmap.Map(np.unpackbits(rows, axis=1).view(bool))
    numbers = np.random.default_rng(SEED)
    x, y = numbers.uniform(0, SIDE, (2, 100_000))
    theta = numbers.uniform(-np.pi, np.pi, 100_000)
    poses = list(zip(x.tolist(), y.tolist(), theta.tolist()))[:5000]
    for name, points in SHAPES.items():
        robot = clearmap.Footprint(points)
        one = least(rounds, len(poses), lambda: [robot.hits(area, *pose) for pose in poses])
        many = least(rounds, len(x), lambda: robot.hits_many(area, x, y, theta))
        print(f"{name}, in Python: ns a pose: hits {one:.0f}, hits_many {many:.0f}")


def main():
    """Prints what both clients take, map by map."""
    parser = argparse.ArgumentParser(description=__doc__)
    parser.add_argument("--rounds", type=int, default=7, help="rounds, of which the least counts")
    rounds = parser.parse_args().rounds
    with tempfile.TemporaryDirectory() as room:
        folder = pathlib.Path(room)
        program = built(folder)
        for name, draw in MAPS:
            bitmap = draw(SIDE, random.Random(SEED))
            bitmap.write(folder / "map.pbm")
            print(f"== {name}", flush=True)
            subprocess.run([program, folder / "map.pbm", str(rounds)], check=True)
            by_python(bitmap, rounds)


if __name__ == "__main__":
    main()
