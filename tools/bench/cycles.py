#!/usr/bin/env python3
"""Measures how often planners of `clearmap serve` pin, ask and unpin next to a painter.

All over loopback, in cycles per second.

The map is a floor plan of 4096 by 4096 cells. Each planner has a connection of its own, and waits
for each reply, or sends the lines of five cycles at once and waits for their replies. Printed is a
Markdown table: the cycles per second of all planners, and percentiles of a cycle, or of five, in
microseconds.

Build the program first; `rustc` builds the clients (`cycles.rs`).
"""
import argparse
import pathlib
import random
import subprocess
import sys
import tempfile

from bench import SEED, floor_plan
from program import HERE

sys.path.append(str(HERE.parent))
from served import Served

BATCH = 5


def figures(client, plan, side, planners, seconds, batch):
    with Served(plan.read_bytes(), "--workers", str(planners + 1), "--log", "1000000", "--versions", "64", connections=planners + 1) as server:
        told = subprocess.run([str(client), str(server.port), str(side), str(planners), str(seconds), str(batch)], capture_output=True, text=True)
        if told.returncode != 0:
            sys.exit(told.stderr)
        server.last()
        return [int(word) for word in told.stdout.split()]


def main():
    words = argparse.ArgumentParser(description=__doc__.splitlines()[0])
    words.add_argument("--side", type=int, default=4096)
    words.add_argument("--seconds", type=int, default=5)
    words.add_argument("--rounds", type=int, default=3)
    asked = words.parse_args()
    with tempfile.TemporaryDirectory() as name:
        plan, client = pathlib.Path(name) / "plan.pbm", pathlib.Path(name) / "cycles"
        floor_plan(asked.side, random.Random(SEED)).write(plan)
        subprocess.run(["rustc", "--edition", "2021", "-C", "opt-level=3", "-o", str(client), str(HERE / "cycles.rs")], check=True)
        print("| Planners | lines a write | cycles a second | p50 us | p99 us | versions published |")
        print("|---|---|---|---|---|---|")
        for planners, batch in ((1, 0), (3, 0), (1, BATCH), (3, BATCH)):
            rounds = [figures(client, plan, asked.side, planners, asked.seconds, batch) for _ in range(asked.rounds)]
            print(f"| {planners} | {max(1, 3 * batch)} | " + " | ".join(f"{number:,}" for number in max(rounds)) + " |", flush=True)


if __name__ == "__main__":
    main()
