#!/usr/bin/env python3
"""Sends commands without end to one `clearmap serve`, with a checkpoint whenever its log of 100,000
entries is nearly full, and watches its memory.

One painter paints and clears rectangles of a map of 1024 by 1024, publishes and collects,
sixty-four lines a write; a planner has a new pin for each round and asks it. Each reply has to be
an OK with the next place. Each round ends in a checkpoint, after which the server's resident memory
is read from /proc: it may not be over that of the third round by more than 1 MB. Linux only. Prints
a line for each tenth of the rounds.

    tools/stress/soak.py [COMMANDS]        10,000,000 by default, which takes some minutes
"""
import pathlib
import random
import re
import socket
import sys
import time

sys.path.append(str(pathlib.Path(__file__).resolve().parent.parent))  # served.py
from served import Served, blank

SIDE = 1024
ROUND = 100_000  # commands, the last one a checkpoint
BATCH = 64
SLACK = 1024  # kB


class Connection:
    def __init__(self, port):
        self.socket = socket.create_connection(("127.0.0.1", port), timeout=60)
        self.reader = self.socket.makefile("rb")

    def ask(self, lines):
        """The replies to these lines, which are sent in one write."""
        self.socket.sendall("".join(line + "\n" for line in lines).encode())
        return [self.reader.readline().decode().split() for _ in lines]


def resident(process):
    """The resident memory of a process, in kB."""
    return int(re.search(r"^VmRSS:\s*(\d+) kB", pathlib.Path(f"/proc/{process.pid}/status").read_text(), re.M)[1])


def command(rng, place):
    """The command for a place: mostly a paint or a clear, and each 16 a publish with a collect
    after it."""
    if place % 16 == 0:
        return "PUBLISH"
    if place % 16 == 1:
        return "COLLECT"
    x, y = rng.randrange(SIDE - 90), rng.randrange(SIDE - 90)
    return f"{rng.choice(('PAINT', 'CLEAR'))} {x} {y} {x + rng.randrange(1, 90)} {y + rng.randrange(1, 90)}"


def a_round(rng, painter, planner, place):
    """Does the commands of the places after this one, the last of them a checkpoint."""
    last = place + ROUND
    (pinned,) = planner.ask(["PIN"])
    assert pinned[0] == "OK", pinned
    while place < last:
        places = range(place + 1, min(place + BATCH, last) + 1)
        replies = painter.ask(["CHECKPOINT" if at == last else command(rng, at) for at in places])
        for at, reply in zip(places, replies):
            assert reply[:2] == ["OK", str(at)], f"place {at} is answered {reply}"
        place = places[-1]
        if place % 512 < BATCH:  # a pin that is held for long keeps every version from its own on
            asked, left, pinned = planner.ask([f"AT euclid2 {place % SIDE} 7", "UNPIN", "PIN"])
            assert (asked[0] in ("OK", "NONE"), left[0], pinned[0]) == (True, "OK", "OK"), (asked, left, pinned)
    assert planner.ask(["UNPIN"])[0][0] == "OK"
    return place


def main():
    rounds = (int(sys.argv[1]) if len(sys.argv) > 1 else 10_000_000) // ROUND
    rng = random.Random(20261123)
    with Served(blank(SIDE, SIDE), "--versions", "64", "--log", str(ROUND), connections=2) as server:
        painter, planner = Connection(server.port), Connection(server.port)
        start, place, settled, most = time.time(), 0, None, 0
        for number in range(1, rounds + 1):
            place = a_round(rng, painter, planner, place)
            memory = resident(server.process)
            most = max(most, memory)
            settled = memory if number == 3 else settled
            if number <= 3 or number % max(rounds // 10, 1) == 0:
                print(f"{place} commands, {memory} kB, {place / (time.time() - start):.0f} a second", flush=True)
            assert settled is None or memory <= settled + SLACK, f"{memory} kB after {place} commands, where {settled} kB were enough after {3 * ROUND}"
        for connection in (painter, planner):
            assert connection.ask(["QUIT"]) == [["BYE"]]
        said = server.last()
        assert said == (f"SERVED 2 {place}", 0), said
        print(f"{place} commands with {rounds} checkpoints; at most {most} kB")


if __name__ == "__main__":
    main()
