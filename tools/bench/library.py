#!/usr/bin/env python3
"""Measures the library in this process next to OpenCV and scipy, on the six maps of `bench.py`.

Each call gets the same array of bytes and makes its own arrays of answers. The calls run in turn,
round by round, and the least time of each counts. All are of one thread, but for the last column.
The distances of all are compared cell by cell first; OpenCV's are floats, and its labels are of a
transform that isn't exact. Printed is a Markdown table: milliseconds of `distances` alone and with
the obstacles, and how many times as long the others take. scipy is left out above 1024 cells a side
unless --scipy is given: it takes seconds there.

Needs Debian's python3-numpy, python3-opencv and python3-scipy, and the library (`make lib`).
"""
import argparse
import pathlib
import random
import sys
import time
from typing import Any, Callable, Dict, List

HERE = pathlib.Path(__file__).resolve().parent
sys.path[:0] = [str(HERE), str(HERE.parent.parent / "clients/python")]
import bench
import cv2
import numpy as np
from scipy import ndimage

import clearmap

SIZES = (512, 1024, 4096)
Calls = Dict[str, Callable[[], Any]]


def obstacles_of(bitmap: bench.Bitmap) -> "np.ndarray[Any, Any]":
    """A map as bytes, 1 in each obstacle."""
    rows = np.frombuffer(bytes(bitmap.rows), np.uint8).reshape(bitmap.side, bitmap.across)
    return np.ascontiguousarray(np.unpackbits(rows, axis=1)[:, : bitmap.side])


def opencv_calls(free: Any) -> Calls:
    """OpenCV's transforms of an array with 0 in each obstacle."""
    labelled = cv2.DIST_L2, cv2.DIST_MASK_5
    return {
        "L2": lambda: cv2.distanceTransform(free, cv2.DIST_L2, cv2.DIST_MASK_PRECISE),
        "L2 labels": lambda: cv2.distanceTransformWithLabels(
            free, *labelled, labelType=cv2.DIST_LABEL_PIXEL
        ),
        "L1": lambda: cv2.distanceTransform(free, cv2.DIST_L1, cv2.DIST_MASK_3),
        "C": lambda: cv2.distanceTransform(free, cv2.DIST_C, cv2.DIST_MASK_3),
    }


def own_calls(cells: Any, free: Any) -> Calls:
    """The library's, by the package in Python."""

    def asked(metric: str, nearest: bool, threads: int = 1) -> Callable[[], Any]:
        return lambda: clearmap.distances(
            cells, metric, nearest=nearest, threads=threads, low=1  # type: ignore[call-overload]
        )

    return {
        "euclid2": asked("euclid2", False),
        "city": asked("city", False),
        "chess": asked("chess", False),
        "nearest": asked("euclid2", True),
        "nearest by four": asked("euclid2", True, 4),
        "edt": lambda: clearmap.distance_transform_edt(free),
        "edt, indices": lambda: clearmap.distance_transform_edt(free, return_indices=True),
    }


def scipy_calls(free: Any) -> Calls:
    """scipy's exact transform."""
    return {
        "scipy": lambda: ndimage.distance_transform_edt(free),
        "scipy, indices": lambda: ndimage.distance_transform_edt(free, return_indices=True),
    }


def compare(calls: Calls) -> None:
    """Ends the run if two exact ones don't agree."""
    squares = calls["euclid2"]()
    pairs = {
        "L2": lambda: np.rint(calls["L2"]().astype("f8") ** 2) - squares,
        "L1": lambda: calls["L1"]() - calls["city"](),
        "C": lambda: calls["C"]() - calls["chess"](),
        "nearest by four": lambda: calls["nearest by four"]()[0] - squares,
        "edt": lambda: np.rint(calls["edt"]() ** 2) - squares,
    }
    for name, difference in pairs.items():
        most = np.abs(np.asarray(difference(), dtype="f8")).max()
        # Above 2^24 a float of 32 bits has no room for each square.
        if most > (4 if name == "L2" else 0):
            sys.exit(f"{name} differs by {most}")


def least(calls: Calls, rounds: int) -> Dict[str, float]:
    """The least time of each call, in milliseconds."""
    times = {name: float("inf") for name in calls}
    for _ in range(rounds):
        for name, call in calls.items():
            start = time.perf_counter()
            answer = call()
            times[name] = min(times[name], 1000 * (time.perf_counter() - start))
            del answer
    return times


RATIOS = (
    ("L2", "euclid2"),
    ("L2 labels", "nearest"),
    ("L1", "city"),
    ("C", "chess"),
    ("scipy, indices", "nearest"),
    ("scipy", "edt"),
    ("scipy, indices", "edt, indices"),
)
HEADS = (
    "Map",
    "Cells a side",
    "distances, ms",
    "with obstacles, ms",
    "OpenCV L2",
    "L2 with labels",
    "L1 / city",
    "C / chess",
    "scipy with indices",
    "`distance_transform_edt`",
    "with indices",
    "four threads",
)


def row(name: str, side: int, times: Dict[str, float]) -> List[str]:
    """One row of the table."""
    told = [f"{times[other] / times[own]:.1f}" if other in times else "-" for other, own in RATIOS]
    four = times["nearest by four"] / times["nearest"]
    own = [f"{times[call]:.2f}" for call in ("euclid2", "nearest")]
    return [name, str(side), *own, *told, f"{four:.2f}"]


def main() -> None:
    """Prints the table, a row as soon as it is measured."""
    words = argparse.ArgumentParser(description=(__doc__ or "").splitlines()[0])
    words.add_argument("--sizes", type=int, nargs="+", default=SIZES)
    words.add_argument("--rounds", type=int, default=7)
    words.add_argument("--scipy", action="store_true", help="scipy above 1024 cells a side too")
    options = words.parse_args()
    cv2.setNumThreads(1)
    print("| " + " | ".join(HEADS) + " |\n" + "|---" * len(HEADS) + "|")
    for side in options.sizes:
        for name, make in bench.MAPS:
            cells = obstacles_of(make(side, random.Random(f"{bench.SEED} {name} {side}")))
            free = 1 - cells
            calls = {**own_calls(cells, free), **opencv_calls(free)}
            compare(calls)
            times = least(calls, options.rounds)
            if side <= 1024 or options.scipy:
                times.update(least(scipy_calls(free), options.rounds if side <= 1024 else 1))
            print("| " + " | ".join(row(name, side, times)) + " |", flush=True)


if __name__ == "__main__":
    main()
