#!/usr/bin/env python3
"""Runs every order of two readers, a publish, a checkpoint and a collect against a plain model.

Each order is one run of `clearmap steps`.

The first reader announces, loads, announces what it holds exactly, and looks and leaves; the second
one announces, loads, looks and leaves. The keeper publishes a painted cell (its stores as one lump,
then the commit), then does a checkpoint (its one step), without which the log has no room for more,
and then collects (two scans, then the commit); each order stands directly before its first step.
That is 210,210 orders of 14 events. Each is one run of the built program, whose answers are
compared line by line with those of `steps_model`. Prints how many were run and how many disagreed;
status 1 where one did.
"""
import argparse
import itertools
import multiprocessing
import pathlib
import subprocess
import sys

from steps_model import World

TOP = pathlib.Path(__file__).resolve().parents[2]
PROGRAM = TOP / "crates" / "clearmap" / "out" / "clearmap"
SETTING = (64, 64, 3, 2, 2, 2)
BEFORE = ["C PAINT 0 0 1 1", "K 1"]
KEEPER = [["C PUBLISH", "K 65"], ["K 1"], ["C COLLECT", "C CHECKPOINT", "K 1"], ["C COLLECT", "K 1"], ["K 1"], ["K 1"]]
EVENTS = len(KEEPER) + 8


def looks(r):
    return [f"M {r} 0", f"T {r} 0 0", f"T {r} 1 0"]


READERS = [[["A 0"], ["L 0"], ["E 0"], looks(0) + ["V 0"]], [["A 1"], ["L 1"], looks(1), ["V 1"]]]


def orders():
    """Each order of the events, as the places of the first reader's and of the second's."""
    for first in itertools.combinations(range(EVENTS), 4):
        left = [place for place in range(EVENTS) if place not in first]
        for second in itertools.combinations(left, 4):
            yield first, second


def lines_of(order):
    first, second = order
    events = {"keeper": iter(KEEPER), 0: iter(READERS[0]), 1: iter(READERS[1])}
    lines = list(BEFORE)
    for place in range(EVENTS):
        lines += next(events[0 if place in first else 1 if place in second else "keeper"])
    return lines


def disagreement(order):
    """What the program and the model disagree on in this order; None if they agree."""
    lines = lines_of(order)
    world = World(*SETTING)
    wanted = [f"OPENED {world.tiles}"] + [world.answer(line) for line in lines]
    text = "".join(line + "\n" for line in ["OPEN " + " ".join(map(str, SETTING))] + lines)
    run = subprocess.run([PROGRAM, "steps"], input=text.encode(), capture_output=True)
    given = run.stdout.decode(errors="replace").splitlines()
    return None if (given, run.returncode) == (wanted, 0) else (order, lines, given, wanted)


def main():
    parser = argparse.ArgumentParser(description=__doc__.splitlines()[0])
    parser.add_argument("--every", type=int, default=1, help="take every N-th order alone (1: all)")
    arguments = parser.parse_args()
    chosen = list(itertools.islice(orders(), 0, None, arguments.every))
    with multiprocessing.Pool() as pool:
        found = [wrong for wrong in pool.imap_unordered(disagreement, chosen, 64) if wrong]
    for order, lines, given, wanted in found[:3]:
        print("DISAGREE", order, *(f"  {line}: {got} / {want}" for line, got, want in zip(["OPEN"] + lines, given, wanted)), sep="\n")
    print(f"orders {len(chosen)}, disagreements {len(found)}")
    return 1 if found else 0


if __name__ == "__main__":
    sys.exit(main())
