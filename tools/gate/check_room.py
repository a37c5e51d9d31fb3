"""Counts the bytes of memory that the built program asks for, line by line, and looks at when it
asks.

No contract tells how much an allocation asks for where it may also be refused. Here the requests
are counted: of a connection, of each kind of line, and of `dist`. A connection for whose buffers
there is no memory is told so. Before its first byte `dist` has asked for its memory, and has worked
out all rows.

The requests are those that a library loaded before the C library sees (tools/refuse/refuse.c).
Needs a C compiler; without one nothing is tried, and a line says so.
"""
import contextlib
import os
import pathlib
import re
import shutil
import socket
import subprocess
import sys
import tempfile
import time

TOOLS = pathlib.Path(__file__).resolve().parent.parent
sys.path += [str(TOOLS), str(TOOLS / "refuse")]
from limit_tools import CHECKS, Line, check
from refusing import Refuser
from served import PROGRAM, Served, blank

PATIENCE = 60  # seconds
ENTRY = 352  # bytes of an entry of the log
FIRST_ENTRIES = 16  # entries for which the log has room after the first
SIDE = 640  # of the served map, in cells
COPY = SIDE * SIDE // 8 + 4096  # bytes of a pinned version's copy, and what belongs to it
PIECE = 65_536 + 64  # bytes of a dump's piece
STREAM = [65_536, 65_536]  # bytes of a connection's two buffers
LINE = [16_385, 128]  # bytes of a line and of a reply line
POINT = 4  # bytes of a point of a path
START = 64  # bytes: fewer are for the start of a thread, whose work another does without them
IMAGE = 30  # side of the images of stamps, in cells


class Requests(Refuser):
    """The requests of a program, which are told, and how many of them were looked at."""

    seen = 0

    @contextlib.contextmanager
    def served(self, *flags, at=None):
        """A server of one worker whose requests are told, after those of its start. `at` is the
        number of one that is refused."""
        before = dict(os.environ)
        os.environ.update(self.environment("tell", 1))
        if at is not None:
            os.environ["REFUSE_AT"] = str(at)
        try:
            server = Served(blank(SIDE, SIDE), "--workers", "1", *flags)
        finally:
            os.environ.clear()
            os.environ.update(before)
        with server:
            self.seen = settled(lambda: len(self.requests()))
            yield server

    def requests(self):
        """The sizes of all requests so far, in bytes."""
        lines = self.log.read_text().splitlines()
        return [int(line.split()[2]) for line in lines if line.startswith("REQUEST")]

    def since(self):
        """The bytes asked for since this was asked last."""
        sizes = self.requests()
        new, self.seen = sizes[self.seen :], len(sizes)
        return sum(new)


def settled(number):
    """A number that is asked for again and again, once it stays the same for a while."""
    last = -1
    while (now := number()) != last:
        last = now
        time.sleep(0.2)
    return last


def at_most(what, bytes_asked, most):
    """Checks a number of bytes against the most that are allowed."""
    check(f"{what}: {bytes_asked} bytes asked for, {most} at most", bytes_asked <= most, True)


def stamp(line, side):
    """Stamps a plain image, which says each cell by one byte. Answers the image's length."""
    image = b"P1\n%d %d\n" % (side, side) + b"1" * (side * side)
    check("a stamp", line.ask(b"STAMP 0 0 %d\n" % len(image) + image)[:3], "OK ")
    return len(image)


def of_the_log(entries):
    """The most bytes that one command asks for its entry, where the log has this many."""
    return (2 * entries + FIRST_ENTRIES) * ENTRY


def lines(requests):
    """What each line asks for, on one connection."""
    with requests.served("--log", "100000") as server:
        line = Line(server.port)
        check("a first line", line.ask("PAINT 0 0 1 1\n"), "OK 1 1")
        most = sum(STREAM + LINE) + of_the_log(1)
        at_most("a connection and its first line", requests.since(), most)
        for place in range(2, 2000):
            check("a paint", line.ask(f"PAINT {place % SIDE} 0 {place % SIDE + 1} 1\n")[:3], "OK ")
            at_most(f"PAINT, the {place}th", requests.since(), of_the_log(place))
        length = stamp(line, IMAGE)
        at_most("STAMP", requests.since(), length + 8 * IMAGE + 4096 + of_the_log(2000))
        for command in ("PUBLISH", "REVERT", "COLLECT"):
            line.ask(command + "\n")
            at_most(command, requests.since(), of_the_log(2003))
        check("a checkpoint", line.ask("CHECKPOINT\n")[:3], "OK ")
        at_most("CHECKPOINT", requests.since(), 0)
        for number in range(500):
            line.ask("PAINT 5 5 6 6\n")
        at_most("500 paints in the room of those before", requests.since(), 0)
        pinned(requests, line)


def pinned(requests, line):
    """What the lines of a pinned session ask for."""
    check("a pin", line.ask("PIN\n")[:3], "OK ")
    at_most("PIN", requests.since(), COPY)
    for query, points in (
        ("AT euclid2 600 600", 0),
        ("RECT city 3 3 639 639", 0),
        ("PATH chess 0 0 639 0 639 639", 3 * POINT),
        ("CLEAROF euclid2 9 0 0 639 0 639 639", 3 * POINT),
    ):
        check(query, line.ask(query + "\n")[:3] != "ERR", True)
        at_most(query, requests.since(), points)
    length = int(line.ask("DUMP\n").split()[1])
    check("the bytes of a dump", len(line.take(length)), length)
    at_most("DUMP", requests.since(), PIECE)
    for again in ("UNPIN", "PIN", "AT city 1 1", "UNPIN", "PIN", "BAD"):
        line.ask(again + "\n")
        at_most(again, requests.since(), 0)


def without_buffers(requests):
    """A connection for whose two buffers there is no memory is told so; one without memory for its
    lines ends. The next one is served."""
    with requests.served() as server:
        start = requests.seen
        Line(server.port).ask("UNPIN\n")
        check("the requests of a connection", requests.requests()[start:], STREAM + LINE)
    for place, size in enumerate(STREAM + LINE):
        number = start + place + 1
        with requests.served(at=number) as server:
            with socket.create_connection(("127.0.0.1", server.port), timeout=PATIENCE) as first:
                first.settimeout(PATIENCE)
                first.shutdown(socket.SHUT_WR)
                got = b""
                with contextlib.suppress(ConnectionError):
                    while more := first.recv(4096):
                        got += more
            told = b"ERR 5 Memory\n" if size in STREAM else b""
            check(f"a connection without memory for {size} bytes", got, told)
            check("the next connection", Line(server.port).ask("UNPIN\n"), "ERR 6 NotPinned")


def dist_asks_first(requests):
    """`dist` asks for no more memory after its first byte, but to start threads."""
    for side, flags in ((500, []), (500, ["--nearest"]), (2100, ["--workers", "3"])):
        run = subprocess.run(
            [PROGRAM, "dist", *flags],
            input=blank(side, side),
            capture_output=True,
            timeout=PATIENCE,
            env=requests.environment("tell", 1, "/dev/stdout"),
        )
        what = " ".join(["dist", *flags, f"of {side}"])
        before, rest = re.match(rb"((?:REQUEST \d+ \d+\n)*)(.*)", run.stdout, re.S).groups()
        late = [int(size) for size in re.findall(rb"REQUEST \d+ (\d+)\n", rest)]
        check(f"{what}: some requests", before != b"", True)
        large = [size for size in late if size >= START]
        check(f"{what}: requests after the first byte", large, [])
        check(f"{what}: its rows", rest.count(b"\n") - len(late), side)


def worked(process):
    """How long the threads of a process have worked, in nanoseconds."""
    tasks = pathlib.Path(f"/proc/{process.pid}/task").iterdir()
    return sum(int((task / "schedstat").read_text().split()[0]) for task in tasks)


def dist_works_first():
    """`dist` has done the work of all rows before its first byte: while nobody reads that, it
    waits."""
    with tempfile.TemporaryFile() as image:
        image.write(blank(4096, 4096))
        image.seek(0)
        words = [PROGRAM, "dist", "--workers", "1"]
        process = subprocess.Popen(words, stdin=image, stdout=subprocess.PIPE)
    with process:
        process.stdout.read(1)
        before = settled(lambda: worked(process))
        read = 1
        at_end = before
        while block := process.stdout.read(1 << 20):
            read += len(block)
            with contextlib.suppress(OSError, IndexError):
                at_end = max(at_end, worked(process))
    check("the status of dist", process.wait(), 0)
    share = before / at_end
    print(f"  {share:.0%} of the work of dist comes before its second byte of {read} is read")
    check("the work before the first byte, a third of it or more", share > 1 / 3, True)


def main():
    """Tries all, and ends with status 1 if anything differs."""
    if not any(shutil.which(compiler) for compiler in ("cc", "gcc", "clang")):
        print("check_room.py left out, nothing was tried: there is no C compiler")
        return 0
    requests = Requests()
    lines(requests)
    without_buffers(requests)
    dist_asks_first(requests)
    dist_works_first()
    print(f"tried {CHECKS.tried}, wrong {CHECKS.failed}")
    return 1 if CHECKS.failed else 0


if __name__ == "__main__":
    sys.exit(main())
