#!/usr/bin/env python3
"""Measures the commands of a store on maps of 512 and of 4096 cells a side, in one process.

In a copy of the crates up to `session` a program (`tiles/main.rt.in`) is proved and built that
paints squares of 64 by 64 cells, stamps bitmaps of 256 by 256, publishes a draft with one changed
tile and collects. Each map is timed in several runs, in turn; the least of each figure is printed
as a Markdown table, in microseconds, with the most memory that the process had.
"""
import argparse
import os
import subprocess
import sys
import tempfile

from program import HERE, add_unproved, build_over_sessions

SIDES = (512, 4096)
KINDS = ("paint", "stamp", "publish", "collect")


def run(program, side):
    """The figures of one run, and the most memory, in megabytes."""
    child = subprocess.Popen([str(program), str(side)], stdout=subprocess.PIPE, text=True)
    text = child.stdout.read()
    _, status, usage = os.wait4(child.pid, 0)
    if status != 0:
        sys.exit(f"{program}: {status}")
    figures = {line.split()[0]: int(line.split()[1]) for line in text.splitlines()}
    return figures, usage.ru_maxrss / 1000


def main():
    parser = argparse.ArgumentParser(description=__doc__.splitlines()[0])
    parser.add_argument("--rounds", type=int, default=3)
    add_unproved(parser)
    given = parser.parse_args()
    with tempfile.TemporaryDirectory() as work:
        program = build_over_sessions(work, HERE / "tiles" / "main.rt.in", not given.unproved)
        least = {side: {} for side in SIDES}
        for _ in range(given.rounds):
            for side in SIDES:
                figures, memory = run(program, side)
                for kind, value in [*figures.items(), ("memory", memory)]:
                    least[side][kind] = min(value, least[side].get(kind, value))
        print("| Cells a side | " + " | ".join(f"`{kind}`, us" for kind in KINDS) + " | memory, MB |")
        print("|---" * (len(KINDS) + 2) + "|")
        for side in SIDES:
            print(f"| {side} | " + " | ".join(f"{least[side][kind] / 1000:.1f}" for kind in KINDS) + f" | {least[side]['memory']:.1f} |")


if __name__ == "__main__":
    main()
