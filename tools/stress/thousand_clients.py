#!/usr/bin/env python3
"""A thousand clients of a gateway, whose replies are compared with a model, again and again.

Each run has a server and a gateway of its own, which uses uvloop if that is installed. While a map
is painted and published each client pins the newest version, asks about cells at random and unpins,
for some rounds; some watch, some close their side before the replies come, some go away in the
middle and come again. A pin may not be older than what was answered to a publish before it. A run
fails on a wrong reply, and where the gateway says something, or ends with another status than 0 at
its signal. Prints a line for each run; the status is 1 if one fails.

    tools/stress/thousand_clients.py [RUNS] [CLIENTS]        20 and 1000 by default
"""
import asyncio
import collections
import pathlib
import random
import resource
import signal
import sys
import time

sys.path.append(str(pathlib.Path(__file__).resolve().parent.parent / "gateway"))
from testing import Gate, Served, blank

import clearmap
import numpy as np

WIDTH, HEIGHT = 200, 150
ROUNDS, LINES = 5, 20
PATIENCE = 60  # seconds for each reply


class Model:
    """The maps of all versions, as they were painted."""

    def __init__(self):
        self.grid = np.zeros((HEIGHT, WIDTH), bool)
        self.maps, self.newest = {0: clearmap.Map(self.grid.copy())}, 0

    def paint(self, x, y):
        self.grid[y : y + 4, x : x + 4] ^= True
        self.maps[self.newest + 1] = clearmap.Map(self.grid.copy())

    def reply(self, version, x, y, metric):
        """What AT is answered."""
        near = self.maps[version].at(x, y, metric)
        return "NONE" if near is None else f"OK {near.distance} {near.obstacle[0]} {near.obstacle[1]}"


class Run:
    """One run of all clients."""

    def __init__(self, port, clients, seed):
        self.port, self.clients, self.model = port, clients, Model()
        self.chance, self.counts, self.faults = random.Random(seed), collections.Counter(), []
        self.is_over = False

    async def all(self):
        """Each client to its end, and the painter until then."""
        painter = asyncio.create_task(self.paint())
        await asyncio.gather(*(self.client(k) for k in range(self.clients)))
        self.is_over = True
        await painter

    async def ask(self, reader, writer, *lines):
        """The replies to lines of one write, without news; "" where the connection has ended."""
        writer.write("".join(line + "\n" for line in lines).encode())
        return [await self.reply(reader) for _ in lines]

    async def reply(self, reader):
        while True:
            line = await asyncio.wait_for(reader.readline(), PATIENCE)
            if not line.startswith(b"VERSION "):
                self.counts["replies"] += 1
                return line.decode().rstrip("\n")
            self.counts["news"] += 1

    async def paint(self):
        """Changes a square, and publishes: through the gateway, as all do."""
        reader, writer = await asyncio.open_connection("127.0.0.1", self.port)
        while not self.is_over:
            x, y = self.chance.randrange(WIDTH - 4), self.chance.randrange(HEIGHT - 4)
            rows = [(x + dx, y + dy) for dy in range(4) for dx in range(4)]
            words = [f"{'CLEAR' if self.model.grid[b, a] else 'PAINT'} {a} {b} {a + 1} {b + 1}"
                     for a, b in rows]  # fmt: skip
            self.model.paint(x, y)
            *_, told = await self.ask(reader, writer, *words, "PUBLISH")
            while not told.startswith("OK "):
                _, told = await self.ask(reader, writer, "COLLECT", "PUBLISH")
            self.model.newest = int(told.split()[2])
            await self.ask(reader, writer, "COLLECT")
            await asyncio.sleep(0.02)
        writer.close()

    async def client(self, k):
        """One client: all of its rounds, over one connection or several."""
        reader = writer = None
        for turn in range(ROUNDS):
            if writer is None:
                reader, writer = await asyncio.open_connection("127.0.0.1", self.port)
                if k % 3 == 0:
                    await self.ask(reader, writer, "WATCH")
            await self.round(reader, writer, ends=(k + turn) % 10 == 0)
            if (k + turn) % 10 < 2:
                writer.close()
                writer = None
        if writer is not None:
            writer.close()

    async def round(self, reader, writer, ends):
        """A pin, queries and an unpin in one write; then no more is sent, with `ends`."""
        least = self.model.newest
        asked = [(self.chance.randrange(WIDTH), self.chance.randrange(HEIGHT),
                  self.chance.choice(("euclid2", "city", "chess"))) for _ in range(LINES)]  # fmt: skip
        lines = ["PIN", *(f"AT {metric} {x} {y}" for x, y, metric in asked), "UNPIN"]
        writer.write("".join(line + "\n" for line in lines).encode())
        if ends:
            writer.write_eof()
        pinned, *said, unpinned = [await self.reply(reader) for _ in lines]
        version = int(pinned.split()[1]) if pinned.startswith("OK ") else -1
        wanted = [self.model.reply(version, *cell) for cell in asked] if version >= 0 else None
        if version < least or said != wanted or unpinned != pinned:
            self.faults.append((least, pinned, said[:2], wanted and wanted[:2], unpinned))


def run(clients, seed):
    """One run: whether all was right, and what to say of it."""
    begun = time.monotonic()
    with Served(blank(WIDTH, HEIGHT), "--versions", "64", "--workers", "16") as server, \
            Gate(server.port, "--links", "12") as gate:  # fmt: skip
        done = Run(gate.port, clients, seed)
        asyncio.run(done.all())
        memory = gate.memory()
        gate.process.send_signal(signal.SIGTERM)
        status = gate.process.wait(PATIENCE)
        said = gate.end()
    wrong = [*map(str, done.faults[:3])] + [said] * bool(said) + [f"status {status}"] * (status != 0)
    told = f"{done.counts['replies']:,} replies, {done.counts['news']:,} news, "
    told += f"{len(done.model.maps):,} versions, {len(done.faults)} wrong, {memory:.0f} MB, "
    return not wrong, " ".join([f"{told}{time.monotonic() - begun:.1f} s", *wrong])


def main():
    runs, clients = map(int, (sys.argv[1:] + ["20", "1000"][len(sys.argv) - 1 :])[:2])
    wanted = clients + 200
    _, hard = resource.getrlimit(resource.RLIMIT_NOFILE)
    resource.setrlimit(resource.RLIMIT_NOFILE, (min(2 * wanted, hard), hard))
    failed = 0
    for seed in range(runs):
        is_right, told = run(clients, seed)
        failed += not is_right
        print(f"run {seed + 1}: {told}", flush=True)
    return 1 if failed else 0


if __name__ == "__main__":
    sys.exit(main())
