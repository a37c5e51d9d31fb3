#!/usr/bin/env python3
"""Followers of one name in one process, which ask at random, for the tests and measurements.

    following.py URL NAME COUNT SEED FILE

Each line of the file is one answer: `MAP follower run number order time hash` for a version that
has come, with the SHA-256 of its cells, and `AT number order metric x y` with what was answered.
When a number comes on the standard input it goes on until all followers have that version, or for
30 seconds, and prints how many have it. With ANSWERS=0 in the environment it neither asks nor
hashes."""
import hashlib
import os
import pathlib
import random
import sys
import threading
import time

HERE = pathlib.Path(__file__).resolve().parent
sys.path.insert(0, str(HERE.parent.parent / "clients/python"))

import clearmap

ANSWERS = int(os.environ.get("ANSWERS", "6000"))  # of AT, at most
PATIENCE = 30  # seconds


class Asking:
    """The followers, and the file of what they answer."""

    def __init__(self, url, name, count, seed, out):
        self.followers = [clearmap.Follower(url, name, timeout=2) for _ in range(count)]
        self.random, self.out, self.left = random.Random(seed), out, ANSWERS
        self.lock, self.last = threading.Lock(), None

    def watch(self, index):
        """Notes each version of one follower. One that isn't newer ends the process."""
        before = None
        while True:
            version = self.followers[index].wait(newer_than=before)
            if before is not None and version.order <= before.order:
                sys.exit("an older version came after a newer one")
            told = f"{version.run} {version.number} {version.order} {time.time():.6f}"
            cells = version.map.grid().tobytes() if ANSWERS else b""
            line = f"MAP {index} {told} {hashlib.sha256(cells).hexdigest()}"
            with self.lock:
                print(line, file=self.out)
            before = version

    def ask(self):
        """One answer of any follower, if it has a version."""
        try:
            version = self.random.choice(self.followers).version
        except clearmap.NoVersion:
            return
        width, height = version.map.size
        x, y = self.random.randrange(width), self.random.randrange(height)
        metric = self.random.choice(("euclid2", "city", "chess"))
        near = version.map.at(x, y, metric)
        told = "NONE" if near is None else f"{near.distance} {near.obstacle[0]} {near.obstacle[1]}"
        with self.lock:
            print(f"AT {version.number} {version.order} {metric} {x} {y} {told}", file=self.out)
        self.left -= 1

    def have(self, number):
        """How many followers have this version."""
        versions = (follower._version for follower in self.followers)
        return sum(version is not None and version.number == number for version in versions)


def main():
    url, name, count, seed, path = sys.argv[1:]
    with open(path, "w", encoding="ascii") as out:
        asking = Asking(url, name, int(count), int(seed), out)
        for index in range(int(count)):
            threading.Thread(target=asking.watch, args=(index,), daemon=True).start()
        told = []
        threading.Thread(target=lambda: told.append(sys.stdin.readline()), daemon=True).start()
        while not told:
            if asking.left:
                asking.ask()
            time.sleep(0.001)
        number, end = int(told[0]), time.monotonic() + PATIENCE
        while asking.have(number) < int(count) and time.monotonic() < end:
            time.sleep(0.05)
        time.sleep(0.2)  # the last lines are written
        print(asking.have(number), flush=True)
        with asking.lock:
            out.flush()
            sys.stdout.flush()
            os._exit(0)  # the threads are in the middle of their waits


if __name__ == "__main__":
    main()
