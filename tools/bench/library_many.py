#!/usr/bin/env python3
"""Measures Python's calls for many cells and points next to the library's own calls and others.

Each row has what a call takes in microseconds of the processor, the least of some rounds in which
all run in turn, and how many times as long the others take. Answers are compared first. All are of
one thread, on random maps of 1024 by 1024 cells with one obstacle in a hundred, but for `inflate`
(2000 by 2000) and fields. A field of C++ follows the same maps (`library_many.cpp`).

Needs Debian's python3-numpy, python3-scipy and python3-opencv, g++, and the library (`make lib`).
"""
import argparse
import ctypes
import math
import pathlib
import subprocess
import sys
import tempfile
import time
from typing import Any, Callable, Dict, List, Tuple

HERE = pathlib.Path(__file__).resolve().parent
TOP = HERE.parent.parent
sys.path.insert(0, str(TOP / "clients/python"))
import cv2
import numpy as np
from scipy import ndimage, spatial

import clearmap
from clearmap.library import library
from clearmap.many import cells_of
from clearmap.rows import near_type

SIDE = 1024
Calls = Dict[str, Callable[[], Any]]
chance = np.random.default_rng(2026)


def least(calls: Calls, rounds: int) -> Dict[str, float]:
    """The least time of each call, in microseconds."""
    times = {name: math.inf for name in calls}
    for _ in range(rounds):
        for name, call in calls.items():
            call()  # so that each finds caches as it leaves them
            start = time.process_time_ns()
            call()
            times[name] = min(times[name], (time.process_time_ns() - start) / 1000)
    return times


def show(what: str, calls: Calls, rounds: int) -> None:
    """A row: the first call's time, and how many times as long the others take."""
    times = least(calls, rounds)
    own, *others = times.items()
    told = "; ".join(f"{name} {took / own[1]:.2f}" for name, took in others)
    print(f"| {what} | {own[1]:.1f} | {told} |", flush=True)


def same(one: Any, other: Any, within: float = 0) -> None:
    """Ends the run if answers differ."""
    if not (abs(np.asarray(one, "f8") - np.asarray(other, "f8")) <= within).all():
        sys.exit("answers differ")


# ---- cells


def prepared(area: clearmap.Map, name: str, cells: Any, *rest: int) -> Callable[[], Any]:
    """A call of the library for many cells, whose arguments are ready."""
    count, held, wrong = cells.size // 2, area._held, ctypes.c_size_t()
    out = np.empty(count, near_type())
    call = getattr(library(), f"clearmap_bits_{name}")
    words = *held.where, 0, 0, cells.ctypes.data, count, *rest, out.ctypes.data, count
    return lambda: (call(*words, ctypes.byref(wrong)), out, cells)


def many_cells(grid: Any, area: clearmap.Map, rounds: int) -> None:
    """`at_many` and `clear_many`."""
    tree = spatial.cKDTree(np.argwhere(grid))
    for count in (100, 1000, 100_000):
        xs, ys = chance.integers(0, SIDE, (2, count))
        cells, pairs = cells_of(xs, ys), np.stack((ys, xs), axis=1)
        same(area.at_many(xs, ys).distances, np.rint(tree.query(pairs)[0] ** 2))
        each = list(zip(xs.tolist(), ys.tolist()))
        turns = max(rounds * 1000 // count, 5)
        show(f"`at_many`, {count} cells", {
            "own": lambda: area.at_many(xs, ys),
            "C's": prepared(area, "at_many", cells),
            "`at` one by one": lambda: [area.at(x, y) for x, y in each],
            "cKDTree.query": lambda: tree.query(pairs),
            "`distances` and an index": lambda: area.distances()[ys, xs],
        }, min(turns, 300))  # fmt: skip
        show(f"`clear_many`, {count} cells, 5 cells around", {
            "own": lambda: area.clear_many(xs, ys, 25),
            "C's": prepared(area, "clear_many", cells, 25),
            "`at_many`": lambda: area.at_many(xs, ys),
        }, min(turns, 300))  # fmt: skip


# ---- points


def points_in_metres(grid: Any, area: clearmap.Map, rounds: int) -> None:
    """Slopes, cells and staircases of arrays of points."""
    frame, field = clearmap.Frame(SIDE, SIDE, 0.05, 0, 0), clearmap.Field(area)
    table = 0.05 * np.sqrt(area.distances().astype("f8"))
    slopes = np.gradient(table, 0.05)
    for count in (1000, 100_000):
        xs, ys = chance.uniform(0.05, 51, (2, count))
        places = np.stack((SIDE - ys / 0.05 - 0.5, xs / 0.05 - 0.5))
        told = area.distance_and_gradient(frame, xs, ys)
        same(told.distances, ndimage.map_coordinates(table, places, order=1), 1e-6)
        show(f"`distance_and_gradient`, {count} points of a `Field`", {
            "own": lambda: field.distance_and_gradient(frame, xs, ys),
            "of a `Map`": lambda: area.distance_and_gradient(frame, xs, ys),
            "map_coordinates of distances and both slopes": lambda: [
                ndimage.map_coordinates(part, places, order=1) for part in (table, *slopes)
            ],
        }, rounds)  # fmt: skip
    plan = chance.uniform(0, 51, (20, 2))
    few, listed = (xs[:1000], ys[:1000]), plan.tolist()
    show("`Frame.cell_many`, 1000 points", {
        "own": lambda: frame.cell_many(*few),
        "`cell` one by one": lambda: [frame.cell(point) for point in zip(*few)],
    }, rounds)  # fmt: skip
    show("`Frame.staircase`, an array of 20 points", {
        "own": lambda: frame.staircase(plan),
        "a list of them": lambda: frame.staircase(listed),
    }, rounds)  # fmt: skip


# ---- costs, and maps that change


def recipe(squares: Any) -> Any:
    """The costs of costmap_2d by numpy, from distances in cells."""
    metres = 0.05 * squares
    costs = np.where(metres <= 0.3, 253, 252 * np.exp(-10 * (metres - 0.3)))
    costs[squares == 0] = 254
    costs[squares > math.ceil(0.55 / 0.05)] = 0
    return costs.astype("u1")


def inflated(rounds: int) -> None:
    """`inflate` of 2000 by 2000 cells."""
    words = {"inscribed": 0.3, "radius": 0.55, "scaling": 10, "resolution": 0.05}
    for share in (0.001, 0.05):
        grid = chance.random((2000, 2000)) < share
        free = (~grid).astype("u1")
        by_square = np.array([recipe(np.sqrt([float(n)]))[0] for n in range(150)], "u1")

        def by_opencv() -> Any:
            found = cv2.distanceTransform(free, cv2.DIST_L2, cv2.DIST_MASK_PRECISE)
            return by_square[np.minimum(np.rint(found * found), 149).astype("i4")]

        own = clearmap.inflate(grid, **words)  # type: ignore[arg-type]
        same(own, recipe(ndimage.distance_transform_edt(free)), 1)
        same(own, by_opencv(), 1)
        show(f"`inflate`, 2000 by 2000, {share:.1%} obstacles", {
            "own": lambda: clearmap.inflate(grid, **words),  # type: ignore[arg-type]
            "scipy and numpy": lambda: recipe(ndimage.distance_transform_edt(free)),
            "OpenCV and a look-up": by_opencv,
        }, max(rounds // 40, 3))  # fmt: skip


def pair_of(side: int, boxes: int) -> Tuple[Any, Any]:
    """Two maps that differ by some boxes of 8 by 8 cells; by all cells if there are none."""
    one = chance.random((side, side)) < 0.2
    two = one.copy() if boxes else chance.random((side, side)) < 0.2
    for x, y in chance.integers(0, side - 8, (boxes, 2)):
        two[y : y + 8, x : x + 8] = True
    return one, two


def fields(rounds: int, folder: pathlib.Path) -> None:
    """Fields that follow two maps by turns."""
    flags = ["-std=c++17", "-O2", "-pthread", f"-I{TOP / 'clients/c'}", f"-I{TOP / 'clients/cpp'}"]
    own = TOP / "crates/libclearmap/out/libclearmap.a"
    files = [str(HERE / "library_many.cpp"), str(own), "-o", str(folder / "field")]
    subprocess.run(["g++", *flags, *files], check=True)
    for side in (512, 1024):
        for boxes in (1, 5, 0):
            pair = pair_of(side, boxes)
            names = [str(folder / name) for name in ("one", "two")]
            for grid, name in zip(pair, names):
                grid.tofile(name)
            words = [str(folder / "field"), str(side), str(rounds), *names]
            one, two = map(clearmap.Map, pair)
            field, took, cpp = clearmap.Field(one), [math.inf] * 2, [math.inf] * 2
            for turn in range(2 * rounds):
                start = time.process_time_ns()
                field.update((two, one)[turn % 2])
                took[turn % 2] = min(took[turn % 2], (time.process_time_ns() - start) / 1000)
            for _ in range(3):
                said = subprocess.run(words, check=True, capture_output=True, text=True).stdout
                cpp = [min(pair) for pair in zip(cpp, map(float, said.split()))]
            same(field.distances, one.distances())
            what = f"{boxes} boxes of 8 by 8" if boxes else "a fifth of all cells, drawn anew"
            for name, python, other in zip(("painted", "cleared"), took, cpp):
                print(f"| `Field.update`, {side} a side, {what}, {name} | {python:.1f} "
                      f"| C++'s {other / python:.2f} |", flush=True)  # fmt: skip


def painted(area: clearmap.Map, rounds: int) -> None:
    """Single calls that change a map or ask it."""
    for name, call in (
        ("`Map.paint`, 8 by 8 cells", lambda: area.paint(100, 100, 108, 108)),
        ("`Map.clear`, 8 by 8 cells", lambda: area.clear(100, 100, 108, 108)),
        ("`Map.at`", lambda: area.at(100, 100)),
    ):
        show(name, {"own": call, "a copy of its bits": lambda: area._held.copy()}, 10 * rounds)


def main() -> None:
    """Prints the table, a row as soon as it is measured."""
    words = argparse.ArgumentParser(description=(__doc__ or "").splitlines()[0])
    words.add_argument("--rounds", type=int, default=100)
    rounds: int = words.parse_args().rounds
    cv2.setNumThreads(1)
    print("| Call | us | times as long |\n|---|---|---|")
    grid = chance.random((SIDE, SIDE)) < 0.01
    area = clearmap.Map(grid)
    many_cells(grid, area, rounds)
    points_in_metres(grid, area, rounds)
    inflated(rounds)
    painted(area, rounds)
    with tempfile.TemporaryDirectory() as place:
        fields(rounds, pathlib.Path(place))


if __name__ == "__main__":
    main()
