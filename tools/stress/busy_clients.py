#!/usr/bin/env python3
"""Keeps 16 clients of `clearmap serve` busy with every kind of line, kills some in the middle of
lines and stamps, and then counts.

Each accepted command has a place in the log, which is short: it is full now and then, until the
next checkpoint. In the end one more connection asks what was left: the places from 1 to the last
are each answered once, or belong to a client that was killed before its reply; the next command has
the place after the last; and the least version that a collect keeps is the newest one, so that no
pin of a killed client is left.

    tools/stress/busy_clients.py [SECONDS]
"""
import pathlib
import random
import socket
import sys
import threading
import time

sys.path.append(str(pathlib.Path(__file__).resolve().parent.parent))  # served.py
from served import Served, blank

CLIENTS = 16
SIDE = 256
PATIENCE = 60  # seconds for a reply
COMMANDS = ("PAINT", "CLEAR", "STAMP", "PUBLISH", "REVERT", "COLLECT", "CHECKPOINT")
QUERIES = ("AT", "RECT", "PATH", "CLEAROF")
METRICS = ("euclid2", "city", "chess")


def rect(rng):
    x, y = rng.randrange(SIDE - 32), rng.randrange(SIDE - 32)
    return f"{x} {y} {x + rng.randrange(1, 33)} {y + rng.randrange(1, 33)}"


def point(rng):
    return f"{rng.randrange(SIDE)} {rng.randrange(SIDE)}"


def request(rng):
    """A line with the bytes that it counts, and its command."""
    name = rng.choice(COMMANDS + 4 * QUERIES + ("PIN", "UNPIN", "DUMP", "NOPE"))
    metric = rng.choice(METRICS)
    if name in ("PAINT", "CLEAR"):
        return f"{name} {rect(rng)}\n".encode(), name
    if name == "STAMP":
        image = b"P4\n64 64\n" + rng.randbytes(512)
        x, y = rng.randrange(SIDE - 64), rng.randrange(SIDE - 64)
        return f"STAMP {x} {y} {len(image)}\n".encode() + image, name
    if name == "AT":
        return f"AT {metric} {point(rng)}\n".encode(), name
    if name == "RECT":
        return f"RECT {metric} {rect(rng)}\n".encode(), name
    if name in ("PATH", "CLEAROF"):
        x, y = rng.randrange(SIDE), rng.randrange(SIDE)
        least = " 3" if name == "CLEAROF" else ""
        return f"{name} {metric}{least} {x} {y} {rng.randrange(SIDE)} {y}\n".encode(), name
    return f"{name}\n".encode(), name


class Client:
    """One connection after another; the places that were answered, and how many commands were sent
    whose reply never came."""

    def __init__(self, port, seed, until):
        self.port, self.rng, self.until = port, random.Random(seed), until
        self.places, self.unanswered, self.lines, self.opened, self.killed, self.wrong = [], 0, 0, 0, 0, []
        self.thread = threading.Thread(target=self.run)
        self.thread.start()

    def run(self):
        while time.time() < self.until:
            self.opened += 1
            try:
                with socket.create_connection(("127.0.0.1", self.port), PATIENCE) as stream:
                    self.talk(stream)
            except socket.timeout:
                self.wrong.append(f"no reply within {PATIENCE} s")

    def talk(self, stream):
        replies = stream.makefile("rb")
        for _ in range(self.rng.randrange(1, 400)):
            if time.time() > self.until:
                break
            bytes_, name = request(self.rng)
            self.lines += 1
            if self.rng.random() < 0.002:
                stream.sendall(bytes_[: self.rng.randrange(len(bytes_))])
                self.killed += 1
                return
            stream.sendall(bytes_)
            if self.rng.random() < 0.002:
                self.killed += 1
                self.unanswered += name in COMMANDS
                stream.setsockopt(socket.SOL_SOCKET, socket.SO_LINGER, b"\1\0\0\0\0\0\0\0")
                return
            self.take(name, replies)
        stream.sendall(b"QUIT\n")
        if replies.readline() != b"BYE\n":
            self.wrong.append("QUIT")

    def take(self, name, replies):
        words = replies.readline().split()
        if not words or words[0] not in (b"OK", b"NONE", b"ERR"):
            self.wrong.append(f"{name}: {words}")
        elif words[0] == b"OK" and name in COMMANDS:
            self.places.append(int(words[1]))
        elif words[0] == b"OK" and name == "DUMP" and len(replies.read(int(words[1]))) != int(words[1]):
            self.wrong.append("DUMP")
        elif name == "NOPE" and words[:2] != [b"ERR", b"11"]:
            self.wrong.append(f"NOPE: {words}")


def ask(stream, replies, line):
    stream.sendall(line + b"\n")
    return replies.readline().split()


def main():
    seconds = float(sys.argv[1]) if len(sys.argv) > 1 else 60
    with Served(blank(SIDE, SIDE), "--workers", "16", "--log", "20", "--versions", "64", connections=1_000_000) as server:
        until = time.time() + seconds
        clients = [Client(server.port, seed, until) for seed in range(CLIENTS)]
        for client in clients:
            client.thread.join()
        time.sleep(0.5)  # the last killed clients are noticed
        with socket.create_connection(("127.0.0.1", server.port), PATIENCE) as stream:
            replies = stream.makefile("rb")
            (checkpointed, _, published) = (ask(stream, replies, line) for line in (b"CHECKPOINT", b"COLLECT", b"PUBLISH"))
            collected = ask(stream, replies, b"COLLECT")
        assert published[0] == b"OK", f"refused after a checkpoint and a collect: {published}"
        places = [place for client in clients for place in client.places]
        last = int(checkpointed[1]) - 1
        unanswered = sum(client.unanswered for client in clients)
        missing = last - len(places)
        wrong = [text for client in clients for text in client.wrong]
        print(f"{sum(c.lines for c in clients)} lines over {sum(c.opened for c in clients)} connections, {sum(c.killed for c in clients)} of them killed")
        print(f"{last} accepted commands, {len(places)} answered, {missing} of killed clients (at most {unanswered})")
        assert not wrong, wrong[:5]
        assert len(set(places)) == len(places) and all(1 <= place <= last for place in places), "a place was answered twice"
        assert 0 <= missing <= unanswered, "an accepted command has no reply"
        assert collected[0] == b"OK" and collected[2] == published[2], f"a pin was left: {collected} {published}"
        assert server.process.poll() is None, "the server ended"
        print("each place was answered once or to a killed client, and no pin was left")


if __name__ == "__main__":
    main()
