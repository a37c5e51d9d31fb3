#!/usr/bin/env python3
"""Draws commands for two connections of `clearmap serve`, one after another, and compares each
reply with a plain model.

The model (`steps_model.py`) has sets of cells, and lists of blocks by their numbers: it says how
many cells change, how many blocks a command needs and how many are free, which version may be
published, what a collect frees, and what a pin is held back by. A pinned version is dumped now and
then and compared cell by cell. The maps are small, with sides at the edges of tiles, mostly there
is hardly a free block, and a log is full again and again until a checkpoint. At the end of each map
both pins are left, the draft is reverted, and after a publish and a collect the map's own tiles are
all that is in use: a paint of the whole map then tells how many blocks it needs and how many are
free. The server's last line has the last place.

    tools/stress/random_commands.py [COMMANDS [SEED]]
"""
import pathlib
import random
import socket
import sys

sys.path.append(str(pathlib.Path(__file__).resolve().parent.parent))  # served.py
import steps_model
from served import Served, blank

SIDES = (1, 5, 63, 64, 65, 127, 128, 129, 150)
A_MAP = 400  # commands


class Map(steps_model.World):
    """The model with stamps, pins and whole commands."""

    def row_word(self, cells, k, i):
        return 0  # words of the core, which no client sees

    def order_stamp(self, x, y, width, height, black):
        if x + width > self.width or y + height > self.height:
            raise steps_model.Refused("ERR 1 OutOfRange")
        self.check_log()
        area = {(x + i, y + j) for i in range(width) for j in range(height)}
        wanted = {(x + i, y + j) for i, j in black}
        changed = (area & self.draft) ^ wanted
        needed = {self.position(cell) for cell in changed} - set(self.own)
        if len(needed) > len(self.free):
            raise steps_model.Refused(f"ERR 2 BlocksFull {len(needed)} {len(self.free)}")
        return self.take_up([("stamp", changed, needed)])

    def commit_stamp(self, changed, needed):
        self.draft = self.draft ^ changed
        for k in sorted(needed):
            self.own[k] = self.free.pop(0)
        return [len(changed)]

    def command(self, order, *arguments):
        """The reply to a command."""
        try:
            return self.keep(int(order(*arguments).split()[1]))
        except steps_model.Refused as refusal:
            return str(refusal)

    def pin(self, session):
        if self.pins[session]:
            return "ERR 7 AlreadyPinned"
        self.pins[session] = 2 * self.newest + 2
        return f"OK {self.newest}"

    def unpin(self, session):
        if not self.pins[session]:
            return "ERR 6 NotPinned"
        version, self.pins[session] = self.pins[session] // 2 - 1, 0
        return f"OK {version}"


class Connection:
    def __init__(self, port):
        self.socket = socket.create_connection(("127.0.0.1", port), timeout=30)
        self.reader = self.socket.makefile("rb")

    def ask(self, request):
        self.socket.sendall(request)
        return self.reader.readline().decode().rstrip("\n")

    def dump(self):
        """The cells of the pinned version, or the refusal."""
        answer = self.ask(b"DUMP\n")
        if not answer.startswith("OK "):
            return answer
        text = self.reader.read(int(answer.split()[1]))
        magic, sides, raster = text.split(b"\n", 2)
        assert magic == b"P1", magic
        width = int(sides.split()[0])
        return {(place % width, place // width) for place, digit in enumerate(raster.replace(b"\n", b"")) if digit == ord("1")}


def rectangle(rng, world):
    if rng.random() < 0.08:
        return 0, 0, world.width, world.height
    if rng.random() < 0.05:
        return 0, 0, world.width + 1, world.height
    x, y = rng.randrange(world.width), rng.randrange(world.height)
    return x, y, min(world.width, x + rng.randrange(1, 30)), min(world.height, y + rng.randrange(1, 30))


def image(rng):
    """A raw image with its sides and its black cells."""
    width, height = rng.randrange(1, 80), rng.randrange(1, 80)
    across, chance = (width + 7) // 8, rng.choice((0, 0.02, 0.5, 1))
    black = {(i, j) for i in range(width) for j in range(height) if rng.random() < chance}
    rows = bytearray(across * height)
    for i, j in black:
        rows[j * across + i // 8] |= 128 >> i % 8
    return width, height, black, b"P4\n%d %d\n" % (width, height) + bytes(rows)


def one(rng, world, connections):
    """Asks for one command; gives what was asked, what came, and what the model says."""
    session = rng.randrange(2)
    connection = connections[session]
    name = rng.choices(
        ("PAINT", "CLEAR", "STAMP", "PUBLISH", "REVERT", "COLLECT", "CHECKPOINT", "PIN", "UNPIN", "DUMP"), (24, 14, 10, 16, 6, 14, 4, 7, 7, 2)
    )[0]
    if name in ("PAINT", "CLEAR"):
        words = [name, *map(str, rectangle(rng, world))]
        return words, connection.ask(" ".join(words).encode() + b"\n"), world.command(world.order, words)
    if name == "STAMP":
        x, y = rng.randrange(world.width), rng.randrange(world.height)
        width, height, black, text = image(rng)
        request = f"STAMP {x} {y} {len(text)}"
        return request, connection.ask(request.encode() + b"\n" + text), world.command(world.order_stamp, x, y, width, height, black)
    if name == "PIN":
        return name, connection.ask(b"PIN\n"), world.pin(session)
    if name == "UNPIN":
        return name, connection.ask(b"UNPIN\n"), world.unpin(session)
    if name == "DUMP":
        pinned = world.pins[session]
        return name, connection.dump(), world.published[pinned // 2 - 1] if pinned else "ERR 6 NotPinned"
    return name, connection.ask(name.encode() + b"\n"), world.command(world.order, [name])


def ended(world, connections):
    """The requests after which only the newest version's blocks are in use, each with what came and
    what the model says."""
    for session in (0, 1):
        yield "UNPIN", connections[session].ask(b"UNPIN\n"), world.unpin(session)
    for name in ("CHECKPOINT", "REVERT", "COLLECT", "PUBLISH", "COLLECT"):
        yield name, connections[0].ask(name.encode() + b"\n"), world.command(world.order, [name])


def a_map(rng, count):
    """Runs this many commands on one map. Returns how many replies were wrong."""
    width, height = rng.choice(SIDES), rng.choice(SIDES)
    tiles = ((width + 63) // 64) * ((height + 63) // 64)
    setting = {"blocks": tiles + rng.choice((0, 1, 2, 3, tiles, 3 * tiles)), "versions": rng.randrange(2, 6), "log": rng.choice((6, count // 12, count + 10))}
    world = Map(width, height, setting["blocks"], setting["versions"], 2, setting["log"])
    flags = [word for key, value in setting.items() for word in (f"--{key}", str(value))]
    server = Served(blank(width, height), "--workers", "2", *flags, connections=2)
    connections = [Connection(server.port), Connection(server.port)]
    wrong = 0

    def compare(asked, came, said):
        nonlocal wrong
        if came != said:
            wrong += 1
            print(f"{width} by {height}, {setting}: {asked}: {came!r:.200} in place of {said!r:.200}")

    for _ in range(count):
        compare(*one(rng, world, connections))
    for asked in ended(world, connections):
        compare(*asked)
    if len(world.free) != world.blocks - world.tiles:
        wrong += 1
        print(f"{width} by {height}, {setting}: {len(world.free)} blocks are free at the end")
    for words in (["CLEAR", "0", "0", str(width), str(height)], ["PAINT", "0", "0", str(width), str(height)]):
        compare(words, connections[0].ask(" ".join(words).encode() + b"\n"), world.command(world.order, words))
    for connection in connections:
        compare("QUIT", connection.ask(b"QUIT\n"), "BYE")
    compare("the last line and the status", str(server.last()), str((f"SERVED 2 {world.place}", 0)))
    server.end()
    return wrong


def main():
    commands = int(sys.argv[1]) if len(sys.argv) > 1 else 100_000
    rng = random.Random(int(sys.argv[2]) if len(sys.argv) > 2 else 20261123)
    maps = (commands + A_MAP - 1) // A_MAP
    wrong = sum(a_map(rng, A_MAP) for _ in range(maps))
    print(f"{maps * A_MAP} commands of two connections on {maps} maps: {wrong} disagreements")
    return 1 if wrong else 0


if __name__ == "__main__":
    sys.exit(main())
