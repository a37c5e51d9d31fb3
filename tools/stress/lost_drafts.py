#!/usr/bin/env python3
"""Ends servers while threads paint by one client: no version is published without its paints.

    tools/stress/lost_drafts.py [--turns 5000] [--seed N]

The client reconnects. Its calls are paints, publishes, reverts, queries and pins at random; alarms
cut some of them off, errors are swallowed, and another thread asks, with pauses. Each version that
is published is compared with the changes that were accepted since the last publish, revert or
publish that said that they may be lost. Needs the built program, which CLEARMAP names. Status 1 if
a version lacks a change.
"""
import argparse
import contextlib
import pathlib
import random
import signal
import sys
import threading
import time

TOP = pathlib.Path(__file__).resolve().parents[2]
sys.path[:0] = [str(TOP / "tools"), str(TOP / "clients/python")]

import clearmap
from served import Served

WIDTH, HEIGHT = 16, 12
EMPTY = f"P1\n{WIDTH} {HEIGHT}\n{('0' * WIDTH + chr(10)) * HEIGHT}".encode()
LOST = "paint again, and publish"


class Alarm(BaseException):
    """What the alarm raises."""


def ring(*_):
    raise Alarm


@contextlib.contextmanager
def alarms():
    """For the time of a `with`, an alarm raises."""
    old = signal.signal(signal.SIGALRM, ring)
    try:
        yield
    finally:
        signal.setitimer(signal.ITIMER_REAL, 0)
        signal.signal(signal.SIGALRM, old)


class Storm:
    """One client, the server that it is at, and the cells that the draft has to have."""

    def __init__(self, rng):
        self.rng = rng
        self.server = Served(EMPTY)
        self.client = clearmap.Client(
            self.server.port, timeout=60, checkpoints=True, reconnect=True
        )
        self.accepted = {}  # the cells that were changed since then, and to what
        self.published = self.told = self.lost = 0
        self.wrong = []

    def restart(self):
        """Another server, with nothing of the draft."""
        self.server.end()
        self.server = Served(EMPTY, port=self.server.port)

    def draw(self):
        """Paints or clears a cell; whether it was, if the reply doesn't come, isn't known."""
        x, y, paints = self.rng.randrange(WIDTH), self.rng.randrange(HEIGHT), self.rng.random() < 0.7
        self.accepted.pop((x, y), None)
        (self.client.paint if paints else self.client.clear)(x, y, x + 1, y + 1)
        self.accepted[x, y] = paints

    def publish(self):
        """Publishes, and looks for what was accepted."""
        try:
            number = self.client.publish(collect=True)
        except clearmap.ConnectionLost as lost:
            if LOST in str(lost):
                self.told += 1
                self.accepted = {}
            raise
        self.published += 1
        with clearmap.Client(self.server.port) as other, other.pin() as pinned:
            rows = pinned.dump().split(b"\n")[2:]
            if pinned.version != number:
                self.wrong.append(f"version {pinned.version} is the newest, and not {number}")
        for (x, y), is_painted in self.accepted.items():
            if (rows[y][x : x + 1] == b"1") != is_painted:
                self.wrong.append(f"version {number} lacks the change of ({x}, {y})")
        self.accepted = {}

    def revert(self):
        """Drops what was accepted; whether it does, if the reply doesn't come, isn't known."""
        self.accepted = {}
        self.client.revert()

    def leave(self):
        """A pin that is left by an exception of the caller, after a paint."""
        with contextlib.suppress(KeyError), self.client.pin():
            self.draw()
            if self.rng.random() < 0.3:
                self.restart()
            raise KeyError

    def ask(self):
        """A query whose error is swallowed, as that of a server that was lost."""
        with contextlib.suppress(clearmap.ConnectionLost), self.client.pin() as pinned:
            if self.rng.random() < 0.5:
                self.restart()
            pinned.at(0, 0)

    def in_a_thread(self):
        """A change by a thread that ends at once."""

        def paints():
            with contextlib.suppress(clearmap.ConnectionLost):
                self.draw()

        thread = threading.Thread(target=paints)
        thread.start()
        thread.join()

    def turn(self):
        """One call, of which no error comes out."""
        kinds = (self.draw, self.draw, self.publish, self.revert, self.leave, self.ask)
        call = self.rng.choice((*kinds, self.in_a_thread, self.restart))
        try:
            if call in (self.draw, self.revert) and self.rng.random() < 0.3:
                signal.setitimer(signal.ITIMER_REAL, self.rng.random() * 4e-4 + 1e-6)
            call()
        except (clearmap.ConnectionLost, clearmap.AlreadyPinned, Alarm):
            self.lost += 1
        finally:
            signal.setitimer(signal.ITIMER_REAL, 0)

    def asks(self, ended):
        """Pins and asks until it is told to end, and swallows each error. It pauses at times, so
        that other threads are the first who learn of a loss."""
        while not ended.wait(0.001):
            with contextlib.suppress(clearmap.ConnectionLost, clearmap.AlreadyPinned):
                with self.client.pin() as pinned:
                    pinned.at(0, 0)
            if int(time.monotonic()) % 2:
                ended.wait(1)


def storm(turns, seed=1):
    """That many turns."""
    found, ended = Storm(random.Random(seed)), threading.Event()
    asking = threading.Thread(target=found.asks, args=(ended,))
    asking.start()
    try:
        with alarms():
            for _ in range(turns):
                with contextlib.suppress(Alarm):  # one that came late
                    found.turn()
    finally:
        ended.set()
        asking.join()
        found.client.close()
        found.server.end()
    return found


def main():
    """Its long form."""
    words = argparse.ArgumentParser(description=__doc__.split("\n")[0])
    words.add_argument("--turns", type=int, default=5000)
    words.add_argument("--seed", type=int, default=1)
    told = words.parse_args()
    found = storm(told.turns, told.seed)
    print(f"{found.published} versions published, {found.told} times told of lost changes,", end=" ")
    print(f"{found.lost} calls cut off: {len(found.wrong)} changes lacking")
    for each in found.wrong[:3]:
        print(f"wrong: {each}")
    return 1 if found.wrong else 0


if __name__ == "__main__":
    sys.exit(main())
