#!/usr/bin/env python3
"""Measures the library's queries over bits, blank tiles marked, next to the same loops in Rust.

`library_queries.c` asks by the calls of clearmap.h; its twin is that of `queries.py`, without the
library's tests of arguments. Both draw the same queries, and the sums of their answers are
compared. They run in turn, on the six maps of `bench.py` and on a blank one; the least of each
figure is printed as a Markdown table, in nanoseconds, after the stroke divided by the twin's.

Needs gcc, rustc and the library (`make lib`).
"""
import argparse
import pathlib
import random
import re
import subprocess
import sys
import tempfile
from typing import Dict, Tuple

HERE = pathlib.Path(__file__).resolve().parent
sys.path.insert(0, str(HERE))
import bench
from queries import SIDE, figures, side_of
from twin import build_twin

TOP = HERE.parent.parent
KINDS = ("at", "least_in", "along", "clear_of", "walk")
MAPS = (*bench.MAPS, ("blank", lambda side, rng: bench.Bitmap(side)))
Times = Dict[str, Tuple[int, int]]


def build_own(folder: pathlib.Path) -> pathlib.Path:
    """The program that asks the library."""
    library = TOP / "crates/libclearmap/out/libclearmap.a"
    words = ["gcc", "-std=c11", "-O2", f"-I{TOP / 'clients/c'}", "-o", str(folder / "own")]
    subprocess.run([*words, str(HERE / "library_queries.c"), str(library)], check=True)
    return folder / "own"


def least(own: pathlib.Path, twin: pathlib.Path, source: pathlib.Path, rounds: int) -> Times:
    """The least time of each kind of query, by the library and by its twin."""
    times = {kind: (sys.maxsize, sys.maxsize) for kind in KINDS}
    for _ in range(rounds):
        told, others = figures(own, source), figures(twin, source)
        for kind in KINDS:
            if told[kind][1] != others[kind][1]:
                sys.exit(f"{source.name}, {kind}: the twin answers otherwise")
            one, other = times[kind]
            times[kind] = min(one, told[kind][0]), min(other, others[kind][0])
    return times


def main() -> None:
    """Prints the table, a row as soon as it is measured."""
    words = argparse.ArgumentParser(description=(__doc__ or "").splitlines()[0])
    words.add_argument("--rounds", type=int, default=3)
    words.add_argument("--side", type=side_of, default=SIDE, help="columns and rows of each map")
    options = words.parse_args()
    print("| Map | " + " | ".join(f"`{kind}`" for kind in KINDS) + " |")
    print("|---" * (len(KINDS) + 1) + "|")
    with tempfile.TemporaryDirectory() as place:
        folder = pathlib.Path(place)
        own, twin = build_own(folder), build_twin(folder)
        for name, make in MAPS:
            source = folder / (re.sub(r"\W+", "_", name) + ".pbm")
            make(options.side, random.Random(bench.SEED)).write(source)
            times = least(own, twin, source, options.rounds)
            told = [f"{one} / {one / max(other, 1):.2f}" for one, other in times.values()]
            print(f"| {name} | " + " | ".join(told) + " |", flush=True)


if __name__ == "__main__":
    main()
