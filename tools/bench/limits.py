#!/usr/bin/env python3
"""Measures `clearmap serve` and `dist` next to what the sockets and files allow.

One connection asks the server of a floor plan, and then a server that answers each line with a
ready text (`limits.rs`), by turns: `AT` of random cells, `PAINT` of boxes of 8 by 8 cells, `STAMP`
of images of 256 by 256, and `DUMP`. `dist` runs next to a program that reads the same image and
writes the same text. Printed is a Markdown table: requests per second, the 50th percentile of a
write in microseconds, and the server's rate by the limit's; of `dist` the least of all runs.

Build the program first; `rustc` builds the client and the other server.
"""
import argparse
import pathlib
import random
import shlex
import subprocess
import sys
import tempfile

from bench import PROGRAM, SEED, floor_plan, timed
from program import HERE

sys.path.append(str(HERE.parent))
from served import Served

STAMPED = 256
HEAD = b"P4\n%d %d\n" % (STAMPED, STAMPED)
IMAGE = len(HEAD) + STAMPED * STAMPED // 8


def cases(side, rng):
    """Each case: its name, lines a write, its lines, how many bytes follow each, and its share of
    the requests."""
    cells = [f"AT euclid2 {rng.randrange(side)} {rng.randrange(side)}" for _ in range(4096)]
    corners = [(rng.randrange(side - 8), rng.randrange(side - 8)) for _ in range(4096)]
    paints = [f"PAINT {x} {y} {x + 8} {y + 8}" for x, y in corners]
    stamps = [f"STAMP {rng.randrange(side - STAMPED)} {rng.randrange(side - STAMPED)} {IMAGE}" for _ in range(64)]
    for depth in (1, 16):
        yield "`AT`", depth, cells, 0, 1
        yield "`PAINT`", depth, paints, 0, 1
    yield "`STAMP`", 1, stamps, IMAGE, 0.01
    yield "`DUMP`", 1, ["DUMP"], 0, 0.001


def first_reply(port, lines, counted):
    """What the server says to the first line, and the bytes that follow it."""
    request = f"PIN\n{lines[0]}\n".encode() + (HEAD + bytes(counted - len(HEAD)) if counted else b"")
    text = subprocess.run([str(PROGRAM), "ask", "--port", str(port)], input=request, stdout=subprocess.PIPE, check=True).stdout
    return text[text.index(b"\n") + 1 :]


def rate(client, port, depth, lines, counted, requests):
    words = [client, "ask", port, depth, max(1, requests // depth), lines, counted]
    run = subprocess.run([str(word) for word in words], capture_output=True, text=True)
    if run.returncode != 0:
        sys.exit(run.stderr)
    return tuple(int(word) for word in run.stdout.split())


def measured(client, folder, server, case, asked):
    """The best rate of the server and of the limit, by turns, each with its 50th percentile."""
    _, depth, lines, counted, share = case
    text, reply = folder / "lines.txt", folder / "reply.txt"
    text.write_text("\n".join(lines))
    reply.write_bytes(first_reply(server.port, lines, counted))
    limit = subprocess.Popen([str(client), "echo", str(reply), str(counted)], stdout=subprocess.PIPE, text=True)
    try:
        ports = (server.port, int(limit.stdout.readline()))
        requests = max(depth, int(asked.requests * share))
        rounds = [[rate(client, port, depth, text, counted, requests) for port in ports] for _ in range(asked.rounds)]
    finally:
        limit.kill()
        limit.wait()
    return [max(one[which] for one in rounds) for which in (0, 1)]


def main():
    words = argparse.ArgumentParser(description=__doc__.splitlines()[0])
    words.add_argument("--side", type=int, default=1024)
    words.add_argument("--requests", type=int, default=100000, help="lines of `AT` and `PAINT`; of the others fewer")
    words.add_argument("--rounds", type=int, default=5)
    asked = words.parse_args()
    rng = random.Random(SEED)
    print("| Request | lines a write | a second | p50, us | the limit's | p50, us | ratio |")
    print("|---|---|---|---|---|---|---|")
    with tempfile.TemporaryDirectory(dir="/dev/shm") as name:
        folder = pathlib.Path(name)
        plan, client, table = folder / "plan.pbm", folder / "limits", folder / "table.txt"
        floor_plan(asked.side, rng).write(plan)
        subprocess.run(["rustc", "--edition", "2021", "-C", "opt-level=3", "-o", str(client), str(HERE / "limits.rs")], check=True)
        for case in cases(asked.side, rng):
            with Served(plan.read_bytes(), "--log", "1048576") as server:
                own, limit = measured(client, folder, server, case, asked)
            print(f"| {case[0]} | {case[1]} | {own[0]:,} | {own[1]} | {limit[0]:,} | {limit[1]} | {own[0] / limit[0]:.2f} |", flush=True)
        timed([str(PROGRAM), "dist"], plan, table)
        copy = ["sh", "-c", f"cat > /dev/null; cat {shlex.quote(str(table))}"]
        rounds = [[timed(command, plan, folder / "out.txt")[0] for command in ([str(PROGRAM), "dist"], copy)] for _ in range(asked.rounds)]
        own, limit = (min(one[which] for one in rounds) for which in (0, 1))
        print(f"\n`dist` of {asked.side} by {asked.side} takes {own * 1000:.1f} ms, a copy of its input and its text {limit * 1000:.1f}.")


if __name__ == "__main__":
    main()
