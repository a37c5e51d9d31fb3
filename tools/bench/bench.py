#!/usr/bin/env python3
"""Measures `clearmap dist` next to scipy's exact distance transform, on the same maps.

Both write the same text at the end.

Seven maps (one obstacle; 0.1, 1 and 20 per cent of the cells at random; obstacles only; a floor
plan of rooms with doors; straight walls 200 rows apart) in several sizes, each with a fixed seed,
are written as raw PBM. For each map
the programs run in turn, round by round: `dist`, `dist --workers 4`, `dist --nearest`, and
`scipy_dist.py`, which reads the same file and writes the same lines. All read from and write to
files in memory. What four workers write is compared byte by byte with what one writes, the
distances of the others are compared, and each obstacle that `--nearest` names is looked up in the
map.

Printed is a Markdown table: the least and the median time of each program and of its processors,
how many times as fast `dist` is as the script (the least of each), and the time of four workers
next to that of one. Build the program first.
"""
import argparse
import datetime
import filecmp
import os
import pathlib
import random
import resource
import statistics
import subprocess
import sys
import tempfile
import time

HERE = pathlib.Path(__file__).resolve().parent
BUILT = HERE.parent.parent / "crates" / "clearmap" / "out" / "clearmap"
PROGRAM = pathlib.Path(os.environ.get("CLEARMAP") or BUILT)
PYTHON = "/usr/bin/python3"
SCIPY_DIST = str(HERE / "scipy_dist.py")
CHECK = str(HERE / "check.py")
SIZES = (512, 1024, 2048, 4096)
SEED = 20261122


class Bitmap:
    """A square map of free cells, in which obstacles are drawn."""

    def __init__(self, side):
        self.side = side
        self.across = (side + 7) // 8
        self.rows = bytearray(self.across * side)

    def draw(self, x, y):
        self.rows[y * self.across + x // 8] |= 0x80 >> (x % 8)

    def write(self, path):
        path.write_bytes(b"P4\n%d %d\n" % (self.side, self.side) + self.rows)


def one_obstacle(side, rng):
    bitmap = Bitmap(side)
    bitmap.draw(rng.randrange(side), rng.randrange(side))
    return bitmap


def at_random(share):
    def make(side, rng):
        bitmap = Bitmap(side)
        for place in rng.sample(range(side * side), int(share * side * side)):
            bitmap.draw(place % side, place // side)
        return bitmap

    return make


def full(side, rng):
    bitmap = Bitmap(side)
    bitmap.rows = bytearray(b"\xff") * len(bitmap.rows)
    return bitmap


def cuts(side, rng):
    """Where walls stand: at both edges, and in between at distances of 40 to 120 cells."""
    places = [0]
    while side - 1 - places[-1] > 160:
        places.append(places[-1] + rng.randrange(40, 121))
    return places + [side - 1]


def draw_walls(side, places, crossing, rng, draw):
    """Walls at these places, each with a door of 10 cells between two walls that cross it, but for
    those at the edges."""
    for place in places:
        for first, last in zip(crossing, crossing[1:]):
            door = rng.randrange(first + 5, last - 15) if 0 < place < side - 1 else side
            for along in range(first, last + 1):
                if not door <= along < door + 10:
                    draw(place, along)


def floor_plan(side, rng):
    """Rooms between walls of one cell, with a door of 10 cells in each wall between two rooms."""
    bitmap = Bitmap(side)
    columns, rows = cuts(side, rng), cuts(side, rng)
    draw_walls(side, columns, rows, rng, bitmap.draw)
    draw_walls(side, rows, columns, rng, lambda y, x: bitmap.draw(x, y))
    return bitmap


def walls(side, rng):
    """Straight walls from edge to edge, 200 rows apart."""
    bitmap = Bitmap(side)
    for y in range(min(100, side // 2), side, 200):
        bitmap.rows[y * bitmap.across : (y + 1) * bitmap.across] = b"\xff" * bitmap.across
    return bitmap


MAPS = (
    ("one obstacle", one_obstacle),
    ("0.1 % at random", at_random(0.001)),
    ("1 % at random", at_random(0.01)),
    ("20 % at random", at_random(0.2)),
    ("obstacles alone", full),
    ("floor plan", floor_plan),
)


def commands(program):
    return (
        ("dist", [str(program), "dist"]),
        ("dist --workers 4", [str(program), "dist", "--workers", "4"]),
        ("dist --nearest", [str(program), "dist", "--nearest"]),
        ("scipy", [PYTHON, SCIPY_DIST]),
    )


def processor_seconds():
    """The processor's seconds of all programs that were run."""
    used = resource.getrusage(resource.RUSAGE_CHILDREN)
    return used.ru_utime + used.ru_stime


def timed(command, source, target):
    """The seconds of one run, its processor seconds, and those that the command reports of its own
    work, if any."""
    with open(source, "rb") as given, open(target, "wb") as taken:
        start, used = time.perf_counter(), processor_seconds()
        run = subprocess.run(command, stdin=given, stdout=taken, stderr=subprocess.PIPE)
        seconds, worked = time.perf_counter() - start, processor_seconds() - used
    if run.returncode != 0:
        sys.exit(f"{' '.join(command)}: status {run.returncode}, {run.stderr[:400]!r}")
    told = run.stderr.decode().split()
    return seconds, worked, float(told[-1]) if told else None


def measure(program, rounds, source, folder):
    """Each command's times, round by round; after the last round its output is still there."""
    times = {}
    for _ in range(rounds):
        for name, command in commands(program):
            seconds, worked, own = timed(command, source, folder / f"{name}.txt")
            times.setdefault(name, []).append(seconds)
            times.setdefault(f"{name}, processor", []).append(worked)
            if own is not None:
                times.setdefault(f"{name}, without its start", []).append(own)
    return times


def check(source, folder):
    if not filecmp.cmp(folder / "dist.txt", folder / "dist --workers 4.txt", shallow=False):
        return "WRONG: four workers write another text"
    texts = [str(folder / f"{name}.txt") for name in ("dist", "dist --nearest", "scipy")]
    run = subprocess.run([PYTHON, CHECK, str(source)] + texts, capture_output=True)
    return run.stdout.decode().strip() if run.returncode == 0 else f"WRONG: {run.stderr.decode()[-300:]}"


def cell(times):
    return f"{min(times):.3f} / {statistics.median(times):.3f}"


def ratios(times):
    """How many times faster `dist` is than the script, and the time of four workers next to that of
    one."""
    return f"{min(times['scipy']) / min(times['dist']):.1f} | {min(times['dist --workers 4']) / min(times['dist']):.2f}"


def processor():
    for line in open("/proc/cpuinfo"):
        if line.startswith("model name"):
            return line.split(":", 1)[1].strip()
    return "unknown"


def first_line(command):
    return subprocess.run(command, capture_output=True).stdout.decode().strip().splitlines()[0]


def ask_for_huge_pages():
    """Makes programs run from now on ask for huge pages for large allocations."""
    os.environ["GLIBC_TUNABLES"] = "glibc.malloc.hugetlb=1"


def main():
    parser = argparse.ArgumentParser(description=__doc__.splitlines()[0])
    parser.add_argument("--huge-pages", action="store_true", help="ask for huge pages in all programs that are measured")
    parser.add_argument("--program", type=pathlib.Path, default=PROGRAM)
    parser.add_argument("--sizes", type=int, nargs="+", default=SIZES)
    parser.add_argument("--rounds", type=int, default=5)
    options = parser.parse_args()
    if options.huge_pages:
        ask_for_huge_pages()
    print(f"{datetime.date.today()}, {processor()}, {first_line([str(options.program), '--version'])}, {first_line([PYTHON, SCIPY_DIST, '--version'])}. ", end="")
    print(f"Seconds, the least and the median of {options.rounds} runs in turn.\n")
    header = None
    wrong = False
    with tempfile.TemporaryDirectory(dir="/dev/shm") as place:
        folder = pathlib.Path(place)
        for side in options.sizes:
            for name, make in (*MAPS, ("walls", walls)):
                source = folder / "map.pbm"
                make(side, random.Random(f"{SEED} {name} {side}")).write(source)
                times = measure(options.program, options.rounds, source, folder)
                if header is None:
                    header = list(times)
                    print("| Map | Cells a side | " + " | ".join(header) + " | times as fast | four workers | Compared |")
                    print("|---" * (len(header) + 5) + "|")
                said = check(source, folder)
                wrong = wrong or said.startswith("WRONG")
                print(f"| {name} | {side} | " + " | ".join(cell(times[each]) for each in header) + f" | {ratios(times)} | {said} |", flush=True)
    return 1 if wrong else 0


if __name__ == "__main__":
    sys.exit(main())
