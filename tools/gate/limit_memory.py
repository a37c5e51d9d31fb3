"""What check_limits.py tries of a server with a memory limit: the log keeps each stamp's image
until a checkpoint."""
import os
import pathlib
import resource

from limit_tools import Line, check, row
from served import Served

SIDE = 1024
ROOM = 24 << 20  # bytes of address space over what a server takes that is at rest
ROUNDS = int(os.environ.get("ROUNDS", "20"))
STRIPES = [b"P4\n%d %d\n" % (SIDE, SIDE) + bytes([byte]) * (SIDE // 8 * SIDE) for byte in (85, 170)]


def start(limit=resource.RLIM_INFINITY):
    """A server of stripes with this limit of address space, and its two clients, one with a pin."""
    own = resource.getrlimit(resource.RLIMIT_AS)
    resource.setrlimit(resource.RLIMIT_AS, (limit, own[1]))
    try:
        server = Served(STRIPES[0], "--workers", "2")
    finally:
        resource.setrlimit(resource.RLIMIT_AS, own)
    painter, planner = Line(server.port), Line(server.port)
    for line in (painter, planner):
        check("a pin", line.ask("PIN\n"), "OK 0")
        check("its first query", line.ask(f"RECT city 0 0 {SIDE} {SIDE}\n"), "OK 0 1 0 1 0")
    painter.ask("UNPIN\n")
    return server, painter, planner


def taken(server):
    """The most address space that a server has taken, in bytes."""
    status = pathlib.Path(f"/proc/{server.process.pid}/status").read_text()
    return int(status.split("VmPeak:")[1].split()[0]) << 10


def stamps(painter, place):
    """Stamps whole images in turn until one is refused; how many were accepted, and that reply."""
    count = 0
    while True:
        image = STRIPES[(count + 1) % 2]
        said = painter.ask(b"STAMP 0 0 %d\n" % len(image) + image)
        if not said.startswith(f"OK {place + count} "):
            return count, said
        count += 1


@row("The images of stamps since the last `CHECKPOINT`")
def images(numbers, answers):
    server, painter, planner = start()
    with server:
        check("a stamp", painter.ask(b"STAMP 0 0 8\nP4\n8 1\n\xff"), "OK 1 4")
        limit = taken(server) + ROOM
    server, painter, planner = start(limit)
    place, counts = 1, []
    with server:
        for _ in range(ROUNDS):
            count, said = stamps(painter, place)
            check("a stamp beyond the memory", said, answers[0])
            counts.append(count)
            place += count
            check("the pin stays", planner.ask("AT city 0 0\n"), "OK 1 1 0")
            # The refused stamp drew nothing: the next image in turn changes each cell, or none.
            check("the log drops", painter.ask("CHECKPOINT\n"), f"OK {place}")
            image = STRIPES[count % 2]
            said = painter.ask(b"STAMP 0 0 %d\n" % len(image) + image)
            check("the draft is as before", said, f"OK {place + 1} 0")
            image = STRIPES[0]
            said = painter.ask(b"STAMP 0 0 %d\n" % len(image) + image)
            check("a stamp again", said, f"OK {place + 2} {SIDE * SIDE if count % 2 else 0}")
            check("the log drops again", painter.ask("CHECKPOINT\n"), f"OK {place + 3}")
            place += 4
        check("stamps in a round, of some", min(counts) * SIDE * SIDE // 8 > ROOM // 2, True)
        check("stamps in the last rounds", min(counts[-5:]) * 10 >= max(counts) * 9, True)
        check("the pin is left", planner.ask("UNPIN\n"), "OK 0")
    print(f"  {ROUNDS} rounds of {min(counts)} to {max(counts)} stamps within {limit >> 20} MiB")
