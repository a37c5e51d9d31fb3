#!/usr/bin/env python3
"""Measures queries, and reading and writing images, on the six maps of `bench.py`.

In a copy of the crates that are wanted, a program (`queries/main.rt.in`) is proved and built that
times each kind of query inside one process. Next to it stands a twin in Rust of the very same
loops: the sources of `clearance` and the raw raster of `pbm` without their clauses (`twin.py`),
between `queries/twin_head.rs` and `queries/twin_tail.rs`, compiled by `rustc -O`. Both draw the
same queries, and the sums of their answers are compared. Each map is timed in several runs, in
turn; the least of each figure is printed as a Markdown table.

With `--program`, `dist --query` is timed whole, on raw and plain images, and next to it netpbm's
`pamtopnm` where it is installed.
"""
import argparse
import os
import pathlib
import random
import re
import shutil
import subprocess
import sys
import tempfile
import time

import bench
from program import HERE, add_unproved, build
from twin import build_twin

SIDE = 4096
LEAST_SIDE = 1000  # cells; a path has as many
USES = ["clearance", "pbm", "bits", "metric"]


def figures(program, source):
    text = subprocess.run([str(program), str(source)], capture_output=True, text=True, check=True).stdout
    return {line.split()[0]: tuple(int(word) for word in line.split()[1:]) for line in text.splitlines()}


def measure_map(program, twin, source, rounds):
    least = {}
    for _ in range(rounds):
        one, other = figures(program, source), figures(twin, source)
        for kind, (time_of_one, answers) in one.items():
            of_other, others_answers = other.get(kind, (sys.maxsize, answers))
            if others_answers != answers:
                sys.exit(f"{source.name}, {kind}: the twin answers otherwise")
            so_far = least.get(kind, (sys.maxsize, sys.maxsize))
            least[kind] = (min(so_far[0], time_of_one), min(so_far[1], of_other))
    return least


def cell_of(kind, one, other):
    """A time, and its ratio to the twin's; the twin writes no image."""
    told = f"{one / (1000 if kind == 'walk' else 1):.0f}"
    return told if kind.startswith("write") else f"{told} / {one / max(other, 1):.2f}"


def write_plain(raw, path, side):
    """The same image in the plain form, in lines of 70 digits."""
    across = (side + 7) // 8
    rows = raw.read_bytes()[-across * side :]
    digits = [format(byte, "08b") for byte in range(256)]
    with open(path, "w") as out:
        out.write(f"P1\n{side} {side}\n")
        for y in range(side):
            row = "".join(digits[byte] for byte in rows[y * across : (y + 1) * across])[:side]
            out.write("\n".join(row[x : x + 70] for x in range(0, side, 70)) + "\n")


def side_of(word):
    """The side of a map on which each kind of query fits."""
    side = int(word)
    if not LEAST_SIDE <= side <= SIDE:
        raise argparse.ArgumentTypeError(f"{side}, where {LEAST_SIDE} to {SIDE} are wanted")
    return side


def print_queries(sources, rounds, work, proved):
    """The table of the queries, a row as soon as it is measured."""
    text = (HERE / "queries" / "main.rt.in").read_text()
    program, twin = build(work, text, USES, proved=proved), build_twin(work)
    heads = ("`read_image`, us", "`at`, ns", "`least_in`, ns", "`along`, ns", "`clear_of`, ns", "walk, us", "`write_raw`, us", "`write_plain`, us")
    print("| Map | " + " | ".join(heads) + " |\n|" + "---|" * (len(heads) + 1))
    for name, source in sources:
        least = measure_map(program, twin, source, rounds)
        print(f"| {name} | " + " | ".join(cell_of(kind, *times) for kind, times in least.items()) + " |", flush=True)


def print_whole(program, raw, side):
    """How long `dist --query` takes as a whole, on both forms of an image."""
    plain = raw.with_name("plain.pbm")
    write_plain(raw, plain, side)
    query = [str(program), "dist", "--query", f"AT euclid2 {side // 2} {side // 2}"]
    for form, source in (("raw", raw), ("plain", plain)):
        line = f"dist --query, {form}: {whole(query, source, 15):.1f} ms"
        if shutil.which("pamtopnm"):
            line += f"; pamtopnm: {whole(['pamtopnm'], source, 15):.1f} ms"
        print(line)


def whole(command, source, rounds):
    times = []
    for _ in range(rounds):
        with open(source, "rb") as given:
            start = time.perf_counter()
            run = subprocess.run(command, stdin=given, stdout=subprocess.DEVNULL, stderr=subprocess.PIPE)
            times.append(time.perf_counter() - start)
        if run.returncode != 0:
            sys.exit(f"{command}: {run.stderr[:300]!r}")
    return 1000 * min(times)


def main():
    parser = argparse.ArgumentParser(description=__doc__.splitlines()[0])
    parser.add_argument("--rounds", type=int, default=3)
    parser.add_argument("--side", type=side_of, default=SIDE, help="columns and rows of each map")
    parser.add_argument("--program", type=pathlib.Path, help="the built clearmap, for `dist --query` whole")
    parser.add_argument("--no-queries", action="store_true", help="only `dist --query` whole")
    parser.add_argument("--maps", type=int, default=len(bench.MAPS), help="how many of the maps")
    add_unproved(parser)
    given = parser.parse_args()
    memory = "/dev/shm" if os.path.isdir("/dev/shm") else None
    with tempfile.TemporaryDirectory(dir=memory) as maps, tempfile.TemporaryDirectory() as work:
        sources = []
        for name, make in bench.MAPS[: given.maps]:
            source = pathlib.Path(maps) / (re.sub(r"\W+", "_", name) + ".pbm")
            make(given.side, random.Random(bench.SEED)).write(source)
            sources.append((name, source))
        if not given.no_queries:
            print_queries(sources, given.rounds, work, not given.unproved)
        if given.program:
            source = dict(sources).get("20 % at random", sources[-1][1])
            print_whole(given.program, source, given.side)


if __name__ == "__main__":
    main()
