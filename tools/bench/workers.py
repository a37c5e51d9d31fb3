#!/usr/bin/env python3
"""Measures `clearmap dist` with 1, 2 and 4 workers, on a quiet machine or next to busy programs.

The maps are some of `bench.py`; all programs read from and write to files in memory, in turn, round
by round. With `--load N` N programs that do nothing but count run all the while. Printed is a
Markdown table: the median of one worker in milliseconds, and the medians of the others next to it.
Build the program first.
"""
import argparse
import contextlib
import pathlib
import random
import statistics
import subprocess
import sys
import tempfile

from bench import MAPS, PROGRAM, SEED, timed

WORKERS = (1, 2, 4)
KINDS = ("one obstacle", "0.1 % at random", "20 % at random", "floor plan")


@contextlib.contextmanager
def busy(count):
    """This many programs that keep a processor busy, for as long as the block runs."""
    running = [subprocess.Popen([sys.executable, "-c", "while True: pass"]) for _ in range(count)]
    try:
        yield
    finally:
        for program in running:
            program.kill()
            program.wait()


def medians(program, source, folder, rounds):
    """The median seconds of each number of workers. Their texts must be the same."""
    times = {workers: [] for workers in WORKERS}
    for _ in range(rounds):
        for workers in WORKERS:
            target = folder / f"{workers}.txt"
            times[workers].append(timed([str(program), "dist", "--workers", str(workers)], source, target)[0])
    texts = [(folder / f"{workers}.txt").read_bytes() for workers in WORKERS]
    if any(text != texts[0] for text in texts):
        sys.exit("workers write another text")
    return {workers: statistics.median(all_of) for workers, all_of in times.items()}


def main():
    parser = argparse.ArgumentParser(description=__doc__.splitlines()[0])
    parser.add_argument("--program", type=pathlib.Path, default=PROGRAM)
    parser.add_argument("--sizes", type=int, nargs="+", default=[512, 1024, 1500, 2048, 4096])
    parser.add_argument("--rounds", type=int, default=15)
    parser.add_argument("--load", type=int, default=0, help="how many busy programs run next to it")
    options = parser.parse_args()
    print("| Map | Cells a side | one, ms | " + " | ".join(f"{workers} to one" for workers in WORKERS[1:]) + " |")
    print("|---|---|---|" + "---|" * len(WORKERS[1:]))
    with tempfile.TemporaryDirectory(dir="/dev/shm") as place, busy(options.load):
        folder = pathlib.Path(place)
        for side in options.sizes:
            for name, make in MAPS:
                if name in KINDS:
                    source = folder / "map.pbm"
                    make(side, random.Random(f"{SEED} {name} {side}")).write(source)
                    found = medians(options.program, source, folder, options.rounds)
                    ratios = " | ".join(f"{found[workers] / found[1]:.2f}" for workers in WORKERS[1:])
                    print(f"| {name} | {side} | {found[1] * 1000:.1f} | {ratios} |", flush=True)


if __name__ == "__main__":
    main()
