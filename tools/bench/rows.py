#!/usr/bin/env python3
"""Measures rows and tables of nearest obstacles in one process, next to OpenCV's transforms.

By each metric and with 1, 2 and 4 workers, on the maps of `bench.py`; the table keeps only where
the nearest obstacles are. OpenCV runs on one thread.

Each map is computed by the program and by OpenCV in turn, and the least time of all rounds counts.
Printed are Markdown tables: milliseconds and the ratio to OpenCV's time for each map, then the
ratios' geometric means and largest values next to the aims, and how the time a cell grows from the
smallest to the largest maps. The sums of the answers must be the same for each number of workers
and for the table. With `--before CLONE` the one-worker times of another clone of this repository
are next to them.

With `--wall` each time with an open edge is next to that with a wall, in place of OpenCV's.

With `--hard` the maps of `hard_maps.py` are measured too, without OpenCV, and each map's
nanoseconds per cell are next to the most of the others: no map should take over 2.5 times as much.

OpenCV is Debian's `python3-opencv`.
"""
import argparse
import math
import pathlib
import random
import subprocess
import sys
import tempfile

import bench
from hard_maps import HARD
from program import HERE, ROOT, add_unproved, build

USES = ["field", "pbm", "bits", "metric"]
METRICS = ("euclid2", "city", "chess")
KINDS = ("", "-table")
# The largest mean and the largest ratio aimed at, by kind, metric and whether the map has 512 cells
# a side.
AIMS = {
    ("", "euclid2", False): (0.30, 0.40),
    ("", "euclid2", True): (0.40, 0.60),
    ("-table", "euclid2", False): (0.20, None),
    ("", "city", False): (0.8, 1.2),
    ("", "city", True): (0.8, 1.2),
    ("", "chess", False): (0.8, 1.2),
    ("", "chess", True): (0.8, 1.2),
}


def without(text, start, end):
    """The text without the part from one mark up to another."""
    first = text.index(start)
    return text[:first] + text[text.index(end, first) :]


def without_table(text):
    """The program for crates that have no table."""
    text = without(text, "/// A few of the table's answers", "/// Times one metric").replace("ObstacleTable, ", "")
    text = text.replace("told = work_table::<M, R>(rt, rt.alloc(), bitmap, count);", "told = answers;")
    return text


def alone(text):
    """The program for crates without workers."""
    text = text.replace("use field::{Workers, rows, rows_with};", "use field::rows;").replace("for count in [1, 2, 4]", "for count in [1]")
    start, end = text.index("    let nears = match Workers"), text.index("    match nears {")
    return text[:start] + "    let _ = count;\n    let nears = rows::<M>(alloc, bitmap, edge, 0, height);\n" + text[end:]


def without_batches(text):
    """The program for crates without batches."""
    return text.replace("&Batch::new(bitmap, edge, 0, height)", "bitmap, edge, 0, height").replace("Batch, ", "")


def program_text(root):
    """The program for the crates of a clone."""
    field = root / "crates" / "field"
    text = (HERE / "rows" / "main.rt.in").read_text()
    if not (root / "crates" / "column" / "src" / "batch.rt").exists():
        text = without_batches(text)
    if not (field / "src" / "obstacle_table.rt").exists():
        text = without_table(text)
    homes = [root / "crates" / crate / "src" / "workers.rt" for crate in ("field", "metric")]
    return text if any(home.exists() for home in homes) else alone(text)


def figures(program, source, edge="open"):
    text = subprocess.run([str(program), str(source), edge], capture_output=True, text=True, check=True).stdout
    return {line.split()[0]: (int(line.split()[1]) / 1e6, line.split()[2]) for line in text.splitlines()}


def opencv(source):
    text = subprocess.run([bench.PYTHON, str(HERE / "opencv_rows.py"), str(source)], capture_output=True, text=True, check=True).stdout
    return {line.split()[0]: int(line.split()[1]) / 1e6 for line in text.splitlines()}


def least(runs):
    """The least time of each name, and its answers, which must be the same in all runs."""
    together = {}
    for run in runs:
        for name, (taken, answers) in run.items():
            before = together.get(name, (taken, answers))
            if before[1] != answers:
                sys.exit(f"{name}: the answers differ")
            together[name] = (min(before[0], taken), answers)
    return together


def mean(ratios):
    return math.exp(sum(math.log(ratio) for ratio in ratios) / len(ratios))


def print_means(ratios):
    print("\n| Cells a side | Metric | What | Mean next to OpenCV | Largest | Aim, mean | Aim, largest |")
    print("|---|---|---|---|---|---|---|")
    for (side, metric, kind), values in ratios.items():
        aims = AIMS.get((kind, metric, side <= 512), (None, None))
        told = " | ".join("-" if aim is None else f"{aim:.2f}" for aim in aims)
        print(f"| {side} | {metric} | {'table' if kind else 'rows'} | {mean(values):.2f} | {max(values):.2f} | {told} |")


def print_growth(cells, sides):
    print(f"\n| Map | Metric | ns a cell at {sides[-1]} by those at {sides[0]}, rows | table (aim: 1.5) |")
    print("|---|---|---|---|")
    for name, _ in bench.MAPS:
        for metric in METRICS:
            grown = [cells[name, sides[-1], metric, kind] / cells[name, sides[0], metric, kind] for kind in KINDS]
            print(f"| {name} | {metric} | {grown[0]:.2f} | {grown[1]:.2f} |")


def print_map(name, side, metric, now, peer, old):
    """Prints one map's line, and returns the ratios of rows and table to OpenCV's time."""
    counts = (1, 2, 4)
    rows, table = ([now[f"{metric}{kind}-{count}"] for count in counts] for kind in KINDS)
    if len({answers for _, answers in rows + table} | {old[f"{metric}-1"][1] for _ in old}) != 1:
        sys.exit(f"{name}, {side}, {metric}: the answers differ")
    was = f"{old[metric + '-1'][0]:.2f}" if old else "-"
    times = " | ".join(f"{taken:.2f}" for taken, _ in rows + table)
    ratios = [rows[0][0] / peer[metric], table[0][0] / peer[metric]]
    print(f"| {name} | {side} | {metric} | {times} | {was} | {peer[metric]:.2f} | {ratios[0]:.2f} | {ratios[1]:.2f} |", flush=True)
    return ratios


def print_walls(program, sides, rounds, source):
    """The times with a wall, next to those with an open edge, on maps with obstacles."""
    print("| Map | Cells a side | Metric | rows, open, ms | rows, wall, ms | ratio | table, open, ms | table, wall, ms | ratio (aim: 1.1) |")
    print("|" + "---|" * 9)
    for side in sides:
        for name, make in bench.MAPS:
            make(side, random.Random(f"{bench.SEED} {name} {side}")).write(source)
            runs = {"open": [], "wall": []}
            for _ in range(rounds):
                for edge, found in runs.items():
                    found.append(figures(program, source, edge))
            found = {edge: least(run) for edge, run in runs.items()}
            for metric in METRICS:
                told = []
                for kind in KINDS:
                    of_open, of_wall = (found[edge][f"{metric}{kind}-1"][0] for edge in runs)
                    told += [f"{of_open:.2f}", f"{of_wall:.2f}", f"{of_wall / of_open:.2f}"]
                print(f"| {name} | {side} | {metric} | {' | '.join(told)} |", flush=True)


def hard_map(make):
    def drawn(side, rng):
        bitmap = bench.Bitmap(side)
        make(bitmap, side, rng)
        return bitmap

    return drawn


def print_hard(programs, sides, rounds, source):
    """Nanoseconds per cell of the table on hard maps, next to the most that one of the other maps
    takes."""
    print("| Map | Cells a side | Metric | " + " | ".join(f"{name}, ns a cell | next to the worst" for name in programs) + " |")
    print("|" + "---|" * (3 + 2 * len(programs)))
    for side in sides:
        worst = {}
        for name, make in (*bench.MAPS, *((name, hard_map(make)) for name, make in HARD)):
            make(side, random.Random(f"{bench.SEED} {name} {side}")).write(source)
            runs = {each: [] for each in programs}
            for _ in range(rounds):
                for each, program in programs.items():
                    runs[each].append(figures(program, source))
            found = {each: least(run) for each, run in runs.items()}
            for metric in METRICS:
                if len({each[f"{metric}-table-1"][1] for each in found.values()}) != 1:
                    sys.exit(f"{name}, {side}, {metric}: the answers differ")
                cells = {each: times[f"{metric}-table-1"][0] * 1e6 / side / side for each, times in found.items()}
                for each, taken in cells.items():
                    if (name, make) in bench.MAPS:
                        worst[each, metric] = max(worst.get((each, metric), 0), taken)
                told = " | ".join(f"{taken:.2f} | {taken / worst[each, metric]:.2f}" for each, taken in cells.items())
                print(f"| {name} | {side} | {metric} | {told} |", flush=True)


def main():
    parser = argparse.ArgumentParser(description=__doc__.splitlines()[0])
    parser.add_argument("--sizes", type=int, nargs="+", default=[512, 1024, 4096])
    parser.add_argument("--rounds", type=int, default=2, help="how often the program and OpenCV run in turn")
    parser.add_argument("--before", type=pathlib.Path)
    parser.add_argument("--wall", action="store_true", help="the border as a wall, next to an open one, without OpenCV")
    parser.add_argument("--hard", action="store_true", help="hard maps besides, without OpenCV")
    parser.add_argument("--huge-pages", action="store_true", help="ask for huge pages in all programs that are measured")
    add_unproved(parser)
    given = parser.parse_args()
    with tempfile.TemporaryDirectory() as work:
        work = pathlib.Path(work)
        program = build(work / "now", program_text(ROOT), USES, proved=not given.unproved)
        before = build(work / "before", program_text(given.before), USES, given.before) if given.before else None
        if given.huge_pages:
            bench.ask_for_huge_pages()
        if given.wall:
            print_walls(program, given.sizes, given.rounds, work / "map.pbm")
            return
        if given.hard:
            programs = {"now": program, "before": before} if before else {"now": program}
            print_hard(programs, given.sizes, given.rounds, work / "map.pbm")
            return
        ratios, cells = {}, {}
        print("| Map | Cells a side | Metric | rows, 1 worker, ms | 2 | 4 | table, 1 worker, ms | 2 | 4 | rows before, ms | OpenCV, ms | rows / OpenCV | table / OpenCV |")
        print("|" + "---|" * 13)
        for side in given.sizes:
            for name, make in bench.MAPS:
                source = work / "map.pbm"
                make(side, random.Random(f"{bench.SEED} {name} {side}")).write(source)
                runs, peers, olds = [], [], []
                for _ in range(given.rounds):
                    runs.append(figures(program, source))
                    peers.append(opencv(source))
                    olds.append(figures(before, source) if before else {})
                now, old = least(runs), least(olds)
                peer = {metric: min(run[metric] for run in peers) for metric in METRICS}
                for metric in METRICS:
                    for kind, ratio in zip(KINDS, print_map(name, side, metric, now, peer, old)):
                        ratios.setdefault((side, metric, kind), []).append(ratio)
                        cells[name, side, metric, kind] = now[f"{metric}{kind}-1"][0] / side / side
        print_means(ratios)
        if len(given.sizes) > 1:
            print_growth(cells, given.sizes)


if __name__ == "__main__":
    main()
