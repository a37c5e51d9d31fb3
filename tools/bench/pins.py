#!/usr/bin/env python3
"""Measures pins per second of a store next to a publisher, and LMDB's reads next to a writer.

LMDB's read transactions pin and reset next to one thread that commits.

A program over `session` (`pins/main.rt.in`) is proved and built in a scratch copy of the crates,
one over LMDB (`pins/lmdb_pins.cpp`) by g++; LMDB's headers are Debian's liblmdb-dev. A third, by
rustc, makes the loads and stores of a pin and nothing else (`pins/words.rs`). They run in turn, in
several rounds, with one reader and with three. The best round of each is printed as a Markdown
table: pins per second of all readers together, and percentiles of the slowest reader in
nanoseconds, among which reading the clock is counted; and the microseconds of a pin's first query,
and cycles of a pin, a query and an unpin a second, on a floor plan of 4096 by 4096 cells.
"""
import argparse
import pathlib
import random
import subprocess
import sys
import tempfile

from bench import SEED, floor_plan
from program import HERE, STORE_NAME, add_unproved, build


def build_lmdb(folder):
    program = pathlib.Path(folder) / "lmdb_pins"
    source = HERE / "pins" / "lmdb_pins.cpp"
    subprocess.run(["g++", "-O2", "-std=c++17", str(source), "-o", str(program), "-llmdb", "-lpthread"], check=True)
    return program


def build_words(folder):
    program = pathlib.Path(folder) / "words"
    subprocess.run(["rustc", "--edition", "2021", "-C", "opt-level=3", str(HERE / "pins" / "words.rs"), "-o", str(program)], check=True)
    return program


def figures(words):
    """The lines of numbers that a program writes."""
    done = subprocess.run(words, capture_output=True, text=True)
    if done.returncode != 0:
        sys.exit(done.stdout + done.stderr)
    return [[int(word) for word in line.split()] for line in done.stdout.splitlines()]


def together(readers):
    """All readers' pins per second, and the slowest reader's percentiles."""
    return [sum(reader[0] for reader in readers), *(max(reader[place] for reader in readers) for place in (1, 2, 3))]


def best(rounds):
    """The most pins per second, and the least of each percentile."""
    return [max(each[0] for each in rounds), *(min(each[place] for each in rounds) for place in (1, 2, 3))]


def main():
    parser = argparse.ArgumentParser(description=__doc__.splitlines()[0])
    parser.add_argument("--rounds", type=int, default=3)
    parser.add_argument("--seconds", type=int, default=2)
    add_unproved(parser)
    given = parser.parse_args()
    with tempfile.TemporaryDirectory() as work:
        uses = ["session", "shelf", "clearance", "events", "pbm", "bits", "metric"]
        own = build(work, (HERE / "pins" / "main.rt.in").read_text(), uses, answers=STORE_NAME, proved=not given.unproved)
        plan = pathlib.Path(work) / "plan.pbm"
        floor_plan(4096, random.Random(SEED)).write(plan)
        peer = build_lmdb(work)
        words = build_words(work)
        print("| Readers | who | pins a second | 50 % | 99 % | 99.99 % |")
        print("|---|---|---|---|---|---|")
        queries, cycles = [], []
        for readers in (1, 3):
            ours, theirs, alone = [], [], []
            for turn in range(given.rounds):
                *each, query, (cycle,) = figures([str(own), str(plan), str(readers), str(given.seconds)])
                cycles.append(cycle)
                ours.append(together(each))
                queries.append(query)
                folder = pathlib.Path(work) / f"lmdb-{readers}-{turn}"
                folder.mkdir()
                theirs.append(together(figures([str(peer), str(folder), str(readers), str(given.seconds)])))
                alone.append(together(figures([str(words), str(readers), str(given.seconds)])))
            for who, rounds in (("clearmap", ours), ("LMDB", theirs), ("the loads and stores alone", alone)):
                print(f"| {readers} | {who} | " + " | ".join(f"{figure:,}" for figure in best(rounds)) + " |")
            print(f"| {readers} | ratio | {best(ours)[0] / best(theirs)[0]:.2f} | | | {best(ours)[3] / max(best(theirs)[3], 1):.2f} |")
        print(f"Cycles of a pin, a query and an unpin by one session: {max(cycles):,} a second.")
        print(f"First query at 4096 by 4096: {min(each[0] for each in queries)} us at least, {min(each[1] for each in queries)} us in the median.")


if __name__ == "__main__":
    main()
