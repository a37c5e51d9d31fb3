#!/usr/bin/env python3
"""Tries clients of the built server in parallel: a slow or a leaving one could hold up or deceive
the others.

- Half of a stamp's bytes hold up no painter, and no planner.
- A pin is left before its BYE goes out: a collect after it keeps only the newest version.
- The last reply before a connection's end arrives, however the client ends it.
- A long command line that is refused is reported in full.
"""
import pathlib
import subprocess
import sys

sys.path.append(str(pathlib.Path(__file__).resolve().parent.parent))  # served.py
from limit_tools import CHECKS, Line, check
from served import PROGRAM, Served, blank

TURNS = 300
MAP = blank(64, 64)


def half_a_stamp(server):
    """A painter and a planner are answered while another client's stamp is only half sent."""
    slow, painter, planner = (Line(server.port) for _ in range(3))
    body = b"P1\n2 2\n1001"
    slow.send(b"STAMP 0 0 %d\n" % len(body) + body[:5])
    check("a paint during half a stamp", painter.ask("PAINT 0 0 1 1\n"), "OK 1 1")
    check("a publish during it", painter.ask("PUBLISH\n"), "OK 2 1")
    check("a pin during it", planner.ask("PIN\n"), "OK 1")
    check("a query during it", planner.ask("AT city 3 4\n"), "OK 7 0 0")
    check("the stamp, once it has come", slow.ask(body[5:]), "OK 3 1")
    for line in (slow, painter, planner):
        check("the end", line.once("QUIT\n"), b"BYE\n")


def pins_left_before_bye(server):
    """Each turn: a planner pins and leaves, and a painter's collect after that keeps one version.
    """
    painter = Line(server.port)
    good = 0
    for turn in range(TURNS):
        planner = Line(server.port)
        pinned = planner.once("PIN\nQUIT\n")
        x = turn % 2
        painter.send(f"CLEAR {1 - x} 0 {2 - x} 1\nPAINT {x} 0 {x + 1} 1\n")
        painter.send("PUBLISH\nCOLLECT\nCHECKPOINT\n")
        replies = [painter.reply() for _ in range(5)]
        version = replies[2].split(" ")[2]
        good += pinned.endswith(b"\nBYE\n") and replies[3].split(" ")[2] == version
    check("pins that are left before BYE", good, TURNS)
    check("the painter's end", painter.once("QUIT\n"), b"BYE\n")


def last_replies(server):
    """The last reply comes, whether the client quits, or closes the sending side."""
    good = 0
    for _ in range(TURNS):
        line = Line(server.port)
        line.send("PIN\nAT city 0 0\n")
        line.socket.shutdown(1)
        good += line.rest().count(b"\n") == 2
        line.socket.close()
    check("last replies where the sending side is closed", good, TURNS)


def long_words():
    """A long name is reported in full."""
    name = "x" * 100_000
    run = subprocess.run([PROGRAM, "dist", f"--metric={name}"], capture_output=True, timeout=60)
    wanted = f"clearmap: --metric is one of euclid2, city and chess, not '{name}'\n".encode()
    check("a long name that is refused", (run.returncode, run.stderr == wanted), (2, True))


def main():
    """Tries each, and counts what differs."""
    long_words()
    for part in (half_a_stamp, pins_left_before_bye, last_replies):
        with Served(MAP, "--workers", "4", "--versions", "4") as server:
            part(server)
    print(f"tried {CHECKS.tried}, wrong {CHECKS.failed}")
    return 1 if CHECKS.failed else 0


if __name__ == "__main__":
    sys.exit(main())
