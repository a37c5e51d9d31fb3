#!/usr/bin/env python3
"""Measures `AT` through clearmap-gateway next to a server asked directly, and Redis' `GET`.

A floor plan is served with 16 workers, and a gateway has 8 of them. 950 clients are connected to
the gateway and idle; half of them have a pin. Then 1 and 50 connections ask, one line or 16 at a
time, and each reply is compared with what `clearmap dist --nearest` writes of the cell; a server
can have no more clients than workers, so it is asked by 1 and 8. Redis has 1,000 connections.
Printed is a Markdown table: requests per second, percentiles of a write's latency in microseconds,
and the gateway's resident memory.

Build the program and the library first; `rustc` builds the load generator (`load.rs`).
"""
import argparse
import pathlib
import random
import shutil
import subprocess
import sys
import tempfile

HERE = pathlib.Path(__file__).resolve().parent
sys.path[:0] = [str(HERE), str(HERE.parent / "gateway"), str(HERE.parent)]
from bench import PROGRAM, SEED, floor_plan
from testing import Gate, Line, Served

IDLE = 950


def asked(load, port, connections, depth, requests, table):
    """Requests per second and two percentiles; every reply is right."""
    counts = (connections, depth, max(depth, requests // connections))
    words = [str(word) for word in (load, port, *counts, table)]
    told = subprocess.run(words, check=True, capture_output=True, text=True).stdout.split()
    if told[4] != "0":
        sys.exit(f"{told[4]} of {told[3]} replies were wrong")
    return [int(float(number)) for number in told[:3]]


def row(what, connections, depth, figures):
    print(f"| {what} | {connections} | {depth} | " + " | ".join(f"{n:,}" for n in figures) + " |",
          flush=True)  # fmt: skip


def best(rounds, *what):
    """The round with the least median."""
    return min((asked(*what) for _ in range(rounds)), key=lambda figures: figures[1])


def redis_told(words):
    """The last line of redis-benchmark, once the server is there; nothing if it hangs."""
    for _ in range(20):
        try:
            run = subprocess.run(words, capture_output=True, text=True, timeout=60)
        except subprocess.TimeoutExpired:
            return ""
        lines = run.stdout.splitlines()
        if lines and lines[-1].startswith('"GET"'):
            return lines[-1]
    return ""


def redis(requests):
    """What redis-benchmark reports of GET by 1,000 connections, each of which asks."""
    if not (shutil.which("redis-server") and shutil.which("redis-benchmark")):
        return print("Redis left out: it isn't installed")
    with tempfile.TemporaryDirectory() as folder:
        port = "17421"
        words = ["redis-server", "--port", port, "--bind", "127.0.0.1", "--save", ""]
        words += ["--tcp-backlog", "2048"]
        server = subprocess.Popen([*words, "--dir", folder], stdout=subprocess.DEVNULL)
        words = ["redis-benchmark", "-p", port, "-c", "1000", "-n", str(requests), "--csv"]
        words += ["-t", "get"]
        told = redis_told(words)
        server.kill()
        server.wait()
        if not told:
            return print("Redis left out: redis-benchmark hasn't ended within a minute")
        figures = [float(word.strip('"')) for word in told.split(",")[1:]]
        micros = [int(1000 * figures[k]) for k in (3, 5)]
        row("GET of Redis", 1000, 1, [int(figures[0]), *micros])


def main():
    words = argparse.ArgumentParser(description=__doc__.splitlines()[0])
    words.add_argument("--requests", type=int, default=40_000)
    words.add_argument("--rounds", type=int, default=3)
    words.add_argument("--side", type=int, default=1024)
    words.add_argument("--idle", type=int, default=IDLE, help="clients that only hold a pin or none")
    options = words.parse_args()
    with tempfile.TemporaryDirectory() as name:
        folder = pathlib.Path(name)
        plan, table, load = folder / "plan.pbm", folder / "table", folder / "load"
        floor_plan(options.side, random.Random(SEED)).write(plan)
        with open(plan, "rb") as image, open(table, "wb") as out:
            subprocess.run([str(PROGRAM), "dist", "--nearest"], stdin=image, stdout=out, check=True)
        rust = ["rustc", "--edition", "2021", "-C", "opt-level=3", "-o", str(load)]
        subprocess.run([*rust, str(HERE / "load.rs")], check=True)
        print("| what | connections | lines a write | a second | p50 us | p99 us |")
        print("|---|---|---|---|---|---|")
        with Served(plan.read_bytes(), "--workers", "16", connections=1_000_000) as server, \
                Gate(server.port, "--links", "8") as gate:  # fmt: skip
            idle = [Line(gate.port) for _ in range(options.idle)]
            for line in idle[::2]:
                line.ask("PIN")
            asked_by = (("server", server.port, (1, 8)), ("gateway", gate.port, (1, 50)))
            for what, port, counts in asked_by:
                for connections in counts:
                    for depth in (1, 16):
                        figures = best(options.rounds, load, port, connections, depth,
                                       options.requests, table)  # fmt: skip
                        row(what, connections, depth, figures)
            print(f"{len(idle)} idle clients; the gateway holds {gate.memory():.0f} MB")
            for line in idle:
                line.close()
    redis(options.requests)


if __name__ == "__main__":
    main()
