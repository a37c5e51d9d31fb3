#!/usr/bin/env python3
"""Tries each row of the table of docs/use/LIMITS.md on the built program (or that of CLEARMAP): the
last that is taken, the first that isn't, and what is answered then, with the row's own numbers and
answers.

A row without a try fails, and so does a try without a row. Loopback only; each wait has a time
limit. `tools/gate/check_limits.py WORD ..` tries the rows that have these words in their first
column. ROUNDS is how often stamps fill the memory, 20 unless set.
"""
import pathlib
import re
import resource
import subprocess
import sys
import time

sys.dont_write_bytecode = True
sys.path.append(str(pathlib.Path(__file__).resolve().parent.parent))  # served.py
import limit_memory  # its tries
import limit_settings  # its tries
from limit_tools import CHECKS, TRIES, Line, asked, check, image, ran, row
from served import PROGRAM, Served, blank

PAGE = pathlib.Path(__file__).resolve().parents[2] / "docs/use/LIMITS.md"


def rows():
    """The table: what, the numbers of the limit, and the answers in backticks."""
    table = re.search(
        r"^\| What \| Limit \|.*?\n\|[-|]*\n(.*?)\n\n", PAGE.read_text(), re.M | re.S
    )[1]
    for line in table.split("\n"):
        what, limit, answer = (cell.strip() for cell in line.strip("|").split(" | "))
        yield what.strip(), [
            int(number.replace(",", "")) for number in re.findall(r"\d[\d,]*", limit)
        ], re.findall(r"`([^`]*)`", answer)


# ---- images and lines


@row("A side of a map or an image")
def sides(numbers, answers):
    least, most = numbers
    zero, large = answers[0], f"{answers[0].rsplit(' ', 1)[0]} {answers[1]}"
    for width, height in ((least, least), (most, least), (least, most), (most, most)):
        size = f"{width} by {height}"
        query = ["dist", "--query", "AT city 0 0"]
        check(f"a plain image of {size}", ran(query, image(width, height)), (0, "OK 0 0 0"))
        check(f"a raw image of {size}", ran(query, blank(width, height)), (0, "NONE"))
    for width, height, wanted in (
        (least - 1, least, zero),
        (least, least - 1, zero),
        (most + 1, least, large),
        (least, most + 1, large),
    ):
        given = b"P1\n%d %d\n" % (width, height)
        check(f"an image of {width} by {height}", ran(["dist"], given), (1, wanted))
        serving = ran(["serve", "--connections", "1"], given)
        check(f"a map of {width} by {height}", serving, (1, wanted))
        with Served(blank(least, least)) as server:
            stamp = b"STAMP 0 0 %d\n" % len(given) + given
            check(f"a stamp of {width} by {height}", Line(server.port).ask(stamp), wanted)
    with Served(blank(most, most)) as server:
        largest_map(Line(server.port), most)


def largest_map(line, most):
    """Each command of the largest map, up to its last column and row."""
    last = most - 1
    whole = blank(most, most)
    for said, wanted in (
        (f"STAMP 0 0 {len(whole)}\n".encode() + whole, "OK 1 0"),
        (f"PAINT {last} {last} {most} {most}\n", "OK 2 1"),
        (f"PAINT 0 {last} {most} {most}\n", f"OK 3 {last}"),
        (f"CLEAR 0 {last} {last} {most}\n", f"OK 4 {last}"),
        (f"STAMP {last} 0 8\nP4\n1 1\n\x80", "OK 5 1"),
        (f"STAMP {most} 0 8\nP4\n1 1\n\x80", "ERR 1 OutOfRange"),
        ("PUBLISH\n", "OK 6 1"),
        ("PIN\n", "OK 1"),
        (f"AT euclid2 0 {last}\n", f"OK {last * last} {last} {last}"),
        (f"AT city {last} {last}\n", f"OK 0 {last} {last}"),
        (f"AT city {most} 0\n", "ERR 1 OutOfRange"),
        (f"RECT chess 0 0 {most} {most}\n", f"OK 0 {last} 0 {last} 0"),
        ("RECT euclid2 0 0 1 1\n", f"OK {last * last} 0 0 {last} 0"),
        (f"PATH city 0 0 {last} 0 {last} {last} 0 {last}\n", f"OK 0 {last} 0 {last} 0"),
        (f"CLEAROF city {last + last // 2} 0 {last // 2}\n", "OK CLEAR"),
    ):
        check(f"{said[:40]!r} of the largest map", line.ask(said), wanted)
    ends = -(-most // 70)  # a line of a plain image has 70 cells at most
    count = len(f"P1\n{most} {most}\n") + (most + ends) * most
    check("the largest dump", line.ask("DUMP\n"), f"OK {count}")
    check("its end", line.take(count)[-2:], b"1\n")


@row("A line, with its carriage return")
def lines(numbers, answers):
    (most,) = numbers
    with Served(image(64, 48)) as server:
        line = Line(server.port)
        line.ask("PIN\n")
        for end in ("", "\r"):
            text = long_path(most - len(end))
            check(
                f"a line of {most} bytes, {end!r} with it",
                line.ask(text + end + "\n"),
                "OK 0 0 0 0 0",
            )
            other = Line(server.port)
            check(
                f"a line of {most + 1} bytes, {end!r} with it",
                other.ask(long_path(most + 1 - len(end)) + end + "\n"),
                answers[0],
            )
            check("the connection after it", other.rest(), b"")


def long_path(size):
    """A line of this many bytes that asks for cell (0, 0): each number has 1 to 10 digits."""
    text = "PATH chess 0 0"
    while size - len(text) > 44:
        text += " 0000000000 0000000000"
    left = size - len(text)
    for count in (4, 2):
        if left >= 2 * count:
            digits, more = divmod(left - count, count)
            return text + "".join(
                " " + "0" * (digits + (1 if i < more else 0)) for i in range(count)
            )
    raise ValueError("no such line")


@row("The bytes of a `STAMP`")
def stamps(numbers, answers):
    (most,) = numbers
    head = b"P1\n1 1\n1"
    taken, over = (
        b"STAMP 0 0 %d\n" % size + head + b"\n" * (size - len(head)) for size in (most, most + 1)
    )
    with Served(blank(64, 48)) as server:
        port = server.port
        check(f"{most} bytes by ask", asked(port, taken + b"QUIT\n"), (0, ["OK 1 1", "BYE"]))
        check(f"{most} bytes", Line(port).ask(taken), "OK 2 0")
        refusal = answers[0]
        check("the line of one byte more by ask", asked(port, over[:19]), (0, [refusal]))
        check("with its bytes, which are lines", asked(port, over), (1, [refusal, "FAULT net"]))
        line = Line(port)
        check("one byte more", line.ask(over), refusal)
        check("the connection after it", line.rest(), b"")


@row("The points of a path")
def points(numbers, answers):
    least, most = numbers
    for count, wanted in ((least, True), (most, True), (least - 1, False), (most + 1, False)):
        path = " 0 0" * count
        check(
            f"dist --query of {count} points",
            ran(["dist", "--query", "PATH city" + path], image(2, 2)),
            (0, "OK 0 0 0 0 0") if wanted else (1, answers[0]),
        )
        with Served(image(2, 2)) as server:
            line = Line(server.port)
            line.ask("PIN\n")
            check(
                f"PATH of {count} points",
                line.ask(f"PATH city{path}\n"),
                "OK 0 0 0 0 0" if wanted else answers[0],
            )
            check(
                f"CLEAROF of {count} points",
                line.ask(f"CLEAROF city 1{path}\n"),
                "OK 0 0 0 0 0" if wanted else answers[0],
            )


@row("A number in a line")
def numbers_of_lines(numbers, answers):
    digits, most = numbers
    with Served(image(2, 2)) as server:
        line = Line(server.port)
        line.ask("PIN\n")
        for number, wanted in (
            (str(most), "OK 0 0 0 0 0"),
            ("1".zfill(digits), "OK 0 0 0 0 0"),
            (str(most + 1), answers[0]),
            ("1".zfill(digits + 1), answers[0]),
            ("", answers[0]),
            ("-1", answers[0]),
        ):
            check(f"the number '{number}'", line.ask(f"CLEAROF city {number} 0 0\n"), wanted)


@row("A coordinate of a rectangle")
def coordinates(numbers, answers):
    (most,) = numbers
    with Served(image(2, 2)) as server:
        line = Line(server.port)
        line.ask("PIN\n")
        for command in ("PAINT", "CLEAR", "RECT city"):
            check(
                f"{command} up to {most}",
                line.ask(f"{command} 0 0 {most} {most}\n"),
                "ERR 1 OutOfRange",
            )
            for corner in (f"{most + 1} 1", f"1 {most + 1}"):
                check(
                    f"{command} up to {corner}", line.ask(f"{command} 0 0 {corner}\n"), answers[0]
                )


# ---- replies and ends


@row("A reply line")
def reply_lines(numbers, answers):
    (most,) = numbers
    with Served(blank(4096, 4096), "--edge", "wall") as server:
        line = Line(server.port)
        for said in (
            "PIN",
            "RECT euclid2 2047 2047 2049 2049",
            "CLEAROF euclid2 4294967295 4095 2048",
            "x" * 9000,
            "PATH city" + " 1 1" * 999 + " 2 2",
        ):
            line.ask(said + "\n")
    check("the longest reply of all", 0 < CHECKS.longest_reply <= most, True)


@row("A closing connection")
def closing(numbers, answers):
    megabytes, milliseconds = numbers
    with Served(blank(64, 48)) as server:
        for extra, wanted in ((megabytes - 1, True), (4 * megabytes, False)):
            line = Line(server.port)
            check(
                f"{extra} MiB after a line that is too long are read away",
                line.pushed(b"x" * 2**20, extra),
                wanted,
            )
        line = Line(server.port)
        start = time.monotonic()
        check(
            "a line that is too long, and then nothing", line.ask("x" * 16385), "ERR 13 LineTooLong"
        )
        check(
            "the connection is closed",
            (line.rest(), time.monotonic() - start < 20 + milliseconds / 1000),
            (b"", True),
        )


@row("A query line of `dist --query`, a line of `ask`")
def memory(numbers, answers):
    line = "PATH chess" + " 0000000000 0000000000" * 1000
    check(
        f"dist --query of {len(line)} bytes",
        ran(["dist", "--query", line], image(2, 2)),
        (0, "OK 0 0 0 0 0"),
    )
    with Served(image(2, 2)) as server:
        check(
            "a line of ask that the server doesn't take",
            asked(server.port, line.encode() + b"\n"),
            (0, ["ERR 13 LineTooLong"]),
        )
        small = lambda: resource.setrlimit(resource.RLIMIT_AS, (2**27, 2**27))
        run = subprocess.run(
            [PROGRAM, "ask", "--port", str(server.port)],
            input=b"x" * 2**28,
            preexec_fn=small,
            capture_output=True,
            timeout=120,
        )
        check(
            "a line of ask over its memory",
            (run.returncode, run.stdout.decode().strip()),
            (1, answers[0]),
        )


def main(words):
    table = list(rows())
    for what, _, _ in table:
        if what not in TRIES:
            CHECKS.wrong(f"no try for the row '{what}'")
    for what in TRIES.keys() - {what for what, _, _ in table}:
        CHECKS.wrong(f"a try for a row that isn't there: '{what}'")
    for what, numbers, answers in table:
        if what in TRIES and all(word in what for word in words):
            start, before = time.monotonic(), CHECKS.tried
            TRIES[what](numbers, answers)
            print(
                f"{what}: {CHECKS.tried - before} tries in {time.monotonic() - start:.1f} s",
                flush=True,
            )
    print(f"rows {len(table)}, tried {CHECKS.tried}, wrong {CHECKS.failed}")
    return 1 if CHECKS.failed else 0


if __name__ == "__main__":
    sys.exit(main(sys.argv[1:]))
