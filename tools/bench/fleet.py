#!/usr/bin/env python3
"""Measures a fleet: what a publish costs on its way through Redis to 200 followers.

A floor plan is served, published by clearmap-publish, and followed by 200 followers in four
processes, all on this machine. Each round paints 8 by 8 cells at random and publishes. Printed is
a Markdown table: the time from before the PUBLISH to when clearmap-publish has its copy, which is
the server's work, and from then on to when the first and the last follower have the version; and
the bytes that one more follower receives for it, where the cells lie anywhere, and where they lie
at the corner of four tiles of a map whose cells are random, half of them obstacles.

Build the program and the library first. Needs redis-server and python3-redis.
"""
import argparse
import os
import pathlib
import random
import statistics
import sys
import tempfile
import time

HERE = pathlib.Path(__file__).resolve().parent
sys.path[:0] = [str(HERE), str(HERE.parent / "fleet"), str(HERE.parent)]
os.environ["ANSWERS"] = "0"
from bench import SEED, floor_plan
from test_fleet import Following
from test_links import Link
from testing import Publishing, Redis, Served, clearmap, room, until

PROCESSES = 4


class Counting(Link):
    """A link that counts the bytes that come from its far side."""

    count = 0

    def lead(self, source, target):
        if source.getpeername()[1] == self.far:
            source = _Counted(self, source)
        super().lead(source, target)


class _Counted:
    """A stream whose received bytes a link counts."""

    def __init__(self, link, stream):
        self._link, self._stream = link, stream

    def recv(self, size):
        data = self._stream.recv(size)
        self._link.count += len(data)
        return data

    def shutdown(self, how):
        self._stream.shutdown(how)


def floor(side):
    """A raw image of a floor plan."""
    with tempfile.TemporaryDirectory() as folder:
        path = pathlib.Path(folder, "plan.pbm")
        floor_plan(side, random.Random(SEED)).write(path)
        return path.read_bytes()


def published(client, x, y):
    """Paints or clears 8 by 8 cells, and publishes; the number, and when that began."""
    draw = client.paint if client.paint(x, y, x + 8, y + 8).changed else client.clear
    draw(x, y, x + 8, y + 8)
    begun = time.time()
    number = client.publish()
    client.collect()
    return number, begun


def latencies(image, followers, rounds):
    """For each round the seconds until the publisher has its copy, and from then on until the first
    and the last follower have the version."""
    with Served(image) as server, Redis() as redis, tempfile.TemporaryDirectory() as folder, \
            clearmap.Client(server.port) as client, \
            Publishing(server.port, redis.url, "--interval", "0.02"), \
            clearmap.Follower(redis.url, "yard") as one:  # fmt: skip
        one.wait(timeout=60)
        count = followers // PROCESSES
        fleet = [Following(redis.url, count, seed, folder) for seed in range(PROCESSES)]
        news = lambda: redis.client.pubsub_numsub("clearmap:{yard}:news")[0][1]
        until(lambda: news() == PROCESSES * count + 1, 120)
        time.sleep(5)
        source, width, began = random.Random(1), client.size[0], {}
        for _ in range(rounds):
            number, begun = published(client, *(source.randrange(width - 8) for _ in "xy"))
            began[number] = begun
            until(lambda: one.version.number == number, 60)
            time.sleep(3)
        have = sum(each.end(number) for each in fleet)
        if have != PROCESSES * count:
            sys.exit(f"{have} of {PROCESSES * count} followers have the last version")
        return [times_of(fleet, number, begun) for number, begun in began.items()]


def times_of(fleet, wanted, begun):
    """The times of one version. Its order is the time when it was written, in microseconds."""
    came = []
    for each in fleet:
        for _, _, _, number, order, time_of, _ in each.answers():
            if int(number) == wanted:
                came.append(float(time_of) - int(order) / 1e6)
                written = int(order) / 1e6 - begun
    return written, min(came), max(came)


def received(image, cells):
    """The bytes that a follower receives for each paint."""
    counts = []
    with Served(image) as server, Redis() as redis, Counting(redis.port) as link, \
            clearmap.Client(server.port) as client, \
            Publishing(server.port, redis.url, "--interval", "0.02"), \
            clearmap.Follower(link.url, "yard") as follower:  # fmt: skip
        follower.wait(timeout=60)
        first = link.count
        for x, y in cells:
            before = link.count
            number, _ = published(client, x, y)
            until(lambda: follower.version.number == number, 60)
            counts.append(link.count - before)
    return first, counts


def main():
    words = argparse.ArgumentParser(description=__doc__.splitlines()[0])
    words.add_argument("--followers", type=int, default=200)
    words.add_argument("--rounds", type=int, default=10)
    words.add_argument("--sides", type=int, nargs="+", default=[1024, 4096], help="256 and more")
    options = words.parse_args()
    print(f"| map | copy, ms | first follower, ms | last of {options.followers}, ms | the most | "
          "bytes of a paint | the most |")  # fmt: skip
    print("|---|---|---|---|---|---|---|")
    source = random.Random(2)
    for side in options.sides:
        image = floor(side)
        times = latencies(image, options.followers, options.rounds)
        copy, first, last = ([1000 * row[k] for row in times] for k in range(3))
        anywhere = [(source.randrange(side - 8), source.randrange(side - 8)) for _ in range(8)]
        whole, counts = received(image, anywhere)
        row = (statistics.median(copy), statistics.median(first), statistics.median(last),
               max(last), statistics.median(counts), max(counts))  # fmt: skip
        told = " | ".join(f"{number:,.0f}" for number in row)
        print(f"| floor plan, {side} a side ({whole:,} bytes at first) | {told} |", flush=True)
    side = max(options.sides)
    corners = [(256 * k - 4, 192 * k - 4) for k in range(1, 8) if 256 * k + 4 <= side]
    whole, counts = received(room(side, side, share=0.5), corners)
    told = f"{statistics.median(counts):,.0f} | {max(counts):,}"
    print(f"| half of the cells, {side} a side, corners of tiles ({whole:,} bytes at first) | - | - "
          f"| - | - | {told} |")  # fmt: skip


if __name__ == "__main__":
    main()
