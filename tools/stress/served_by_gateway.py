#!/usr/bin/env python3
"""Acts as the program, except that `serve` answers through a gateway: for CLEARMAP in the scripts
and models that ask a server. BUILT names the program; LINKS is the gateway's, 15.

    CLEARMAP=tools/stress/served_by_gateway.py tools/stress/random_commands.py 4000
"""
import argparse
import asyncio
import os
import pathlib
import subprocess
import sys

TOP = pathlib.Path(__file__).resolve().parents[2]
sys.path[:0] = [str(TOP / "tools/gateway"), str(TOP / "clients/python")]

import clearmap_gateway
import clients

PROGRAM = os.environ.get("BUILT", str(TOP / "crates/clearmap/out/clearmap"))
LINKS = int(os.environ.get("LINKS", "15"))


def flags_of(words):
    """The flags of a `serve`, with those that the gateway takes apart."""
    parser = argparse.ArgumentParser()
    for name in ("connections", "port", "workers"):
        parser.add_argument(f"--{name}", type=int, default=0)
    return parser.parse_known_args(words)


def started(own, flags):
    """A server of the map on standard input that ends with the gateway's connections."""
    words = [PROGRAM, "serve", "--connections", str(LINKS), "--workers", "16", *flags]
    server = subprocess.Popen(words, stdout=subprocess.PIPE)
    told = server.stdout.readline().decode().split()
    if told[:1] != ["LISTENING"]:
        sys.exit(" ".join(told))
    words = ["--port", told[1], "--listen", str(own.port), "--links", str(LINKS)]
    return server, clearmap_gateway.parser().parse_args([*words, "--clients", "100000"])


async def run(options, count):
    """A gateway that ends after this many clients."""
    served = asyncio.Semaphore(0)

    class Counted(clients.Client):
        def connection_lost(self, fault):
            super().connection_lost(fault)
            served.release()

    clients.Client = Counted
    gateway = asyncio.ensure_future(clearmap_gateway.Gateway(options).run())
    for _ in range(count):
        await served.acquire()
    await asyncio.sleep(0.2)  # the last pins are left
    gateway.cancel()


def main():
    if sys.argv[1:2] != ["serve"]:
        os.execv(PROGRAM, [PROGRAM, *sys.argv[1:]])
    own, flags = flags_of(sys.argv[2:])
    server, options = started(own, flags)
    clearmap_gateway.as_many_as_descriptors(2000)
    asyncio.run(run(options, own.connections))
    place = server.stdout.read().decode().split()[2]
    print(f"SERVED {own.connections} {place}", flush=True)
    return server.wait()


if __name__ == "__main__":
    sys.exit(main())
