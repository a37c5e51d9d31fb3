#!/usr/bin/env python3
"""Tests of what a gateway answers: line for line what a server of the same map answers."""
import os
import random
import socket
import unittest

from testing import Gate, Line, Served, blank, post

METRICS = ("euclid2", "city", "chess", "far")


class Twins:
    """A client of a gateway and one of a server of its own, of the same map."""

    def __init__(self, test, through, direct):
        self.test, self.through, self.direct = test, Line(through), Line(direct)

    def ask(self, line, data=b""):
        wanted = self.direct.ask(line, data)
        self.test.assertEqual(self.through.ask(line, data), wanted, line)
        return wanted

    def dump(self):
        wanted = self.direct.dump()
        self.test.assertEqual(self.through.dump(), wanted)

    def close(self):
        self.through.close()
        self.direct.close()


def number(chance):
    """A number of a line, which may be none."""
    return str(
        chance.choice((chance.randrange(66), chance.randrange(50), chance.randrange(50)))
        if chance.random() < 0.97
        else chance.choice(("", "x", "-1", "4294967296", "4294967295", "00000000001", "1 "))
    )


def numbers(chance, count):
    return [number(chance) for _ in range(count)]


def walk(chance, count):
    """A path, whose points are mostly in one row or column with those before."""
    x, y = chance.randrange(64), chance.randrange(48)
    words = []
    for _ in range(count):
        words += [str(x), str(y)]
        if chance.random() < 0.5:
            x = chance.randrange(64)
        else:
            y = chance.randrange(48)
        if chance.random() < 0.03:
            x = y = chance.randrange(70)
    return words


def query(chance):
    """A query line, which may be wrong in each way."""
    metric = chance.choice(METRICS[: 4 if chance.random() < 0.1 else 3])
    kind = chance.choice(("AT", "RECT", "PATH", "CLEAROF"))
    if kind == "AT":
        words = numbers(chance, 2 if chance.random() < 0.95 else chance.randrange(4))
    elif kind == "RECT":
        x, y = chance.randrange(64), chance.randrange(48)
        words = list(map(str, (x, y, x + chance.randrange(9), y + chance.randrange(9))))
        words = words if chance.random() < 0.9 else numbers(chance, 4)
    else:
        words = walk(chance, chance.choice((0, 1, 2, 5, 40, 1000, 1001)))
        words += [number(chance)] if chance.random() < 0.05 else []
        words = ([number(chance)] if kind == "CLEAROF" else []) + words
    return " ".join([kind, metric, *words])


def change(chance):
    """A change's line, and the bytes that it counts."""
    kind = chance.choice(("PAINT", "CLEAR", "STAMP", "PUBLISH", "REVERT", "COLLECT", "CHECKPOINT"))
    if kind == "STAMP":
        image = chance.choice((blank(9, 5), b"P1\n2 1\n10\n", b"P4\n", b"", os.urandom(40)))
        return f"STAMP {number(chance)} {chance.randrange(40)} {len(image)}", image
    if kind in ("PAINT", "CLEAR"):
        x, y = chance.randrange(64), chance.randrange(48)
        words = list(map(str, (x, y, x + chance.randrange(9), y + chance.randrange(9))))
        return " ".join([kind, *(words if chance.random() < 0.9 else numbers(chance, 4))]), b""
    return kind + ("" if chance.random() < 0.95 else " 1"), b""


def anything(chance):
    """A line of any form, and the bytes that it counts."""
    draw = chance.random()
    if draw < 0.45:
        return query(chance), b""
    if draw < 0.65:
        line, image = change(chance)
        # A stamp of another form counts no bytes; what is no line by itself isn't sent after it.
        words = line.split(" ")
        good = words[0] != "STAMP" or (words[1].isdecimal() and int(words[1]) < 2**32
                                       and len(words[1]) < 11)  # fmt: skip
        return line, image if good and len(words) < 5 else b""
    if draw < 0.95:
        return chance.choice(("PIN", "UNPIN", "DUMP", "PIN", "UNPIN", "PIN", "PIN 1", "DUMP ")), b""
    return chance.choice(("", " ", " PIN", "PIN\r", "PIN\r\r", "PAINT 0 0 1 1\r\r", "pin", "HELLO",
                          "AT\0", "PUBLISH\r", "UNPIN\t", "AT", "PATH city", "CLEAROF city",
                          "CLEAROF city 1", "STAMP 1 2", "STAMP 1 2 x", "\xff")), b""  # fmt: skip


class SameReplies(unittest.TestCase):
    """Line for line what a server answers."""

    def run_lines(self, edge, seed, count):
        chance = random.Random(seed)
        flags = ("--edge", edge, "--log", "60", "--versions", "4", "--blocks", "5")
        with Served(post(), *flags, "--workers", "4") as server, \
                Served(post(), *flags, "--workers", "16") as other, \
                Gate(other.port, "--links", "5") as gate:  # fmt: skip
            twins = [Twins(self, gate.port, server.port) for _ in range(3)]
            for _ in range(count):
                twin = chance.choice(twins)
                line, data = anything(chance)
                if line == "DUMP":
                    twin.dump()
                else:
                    twin.ask(line, data)
            for twin in twins:
                twin.ask("QUIT")
                self.assertTrue(twin.through.is_closed())
                twin.close()

    def test_open(self):
        self.run_lines("open", 1, 1500)

    def test_wall(self):
        self.run_lines("wall", 2, 1500)

    def test_dumps(self):
        """Rows of one line and of several, with what is left in the last one."""
        for width in (1, 69, 70, 71, 140, 213):
            image = post(width + 8, 20)
            with Served(image) as server, Gate(server.port, "--links", "2") as gate:
                twin = Twins(self, gate.port, server.port)
                twin.ask("PIN")
                twin.dump()
                twin.ask("PATH chess 0 0 0 19 " + f"{width} 19")
                twin.close()

    def test_ends(self):
        """Lines and stamps that end the connection, with their last reply."""
        with Served(post()) as server, Gate(server.port, "--links", "2") as gate:
            for sent, said in (
                (b"A" * 16_385, b"ERR 13 LineTooLong\n"),
                (b"PIN\n" + b"A" * 200_000 + b"\nPIN\n", b"OK 0\nERR 13 LineTooLong\n"),
                (b"STAMP 0 0 17100001\nPIN\n", b"ERR 14 TooMuchData\n"),
                (b"A" * 16_384 + b"\nQUIT\nPIN\n", b"ERR 11 UnknownCommand\nBYE\n"),
                (b"PIN\nQUIT", b"OK 0\n"),
                (b"STAMP 0 0 9\nP1\n1 1\n", b""),
            ):
                with Line(gate.port) as line:
                    line.socket.sendall(sent)
                    line.socket.shutdown(socket.SHUT_WR)
                    self.assertEqual(line.replies.read(), said)

    def test_browsers(self):
        """A page's request ends its connection, and nothing of its body is done: that of a script,
        of a beacon and of a plain form."""
        lines = b"PAINT 0 0 9 9\r\nPUBLISH\r\n"
        heads = (b"POST / HTTP/1.1\r\nHost: 127.0.0.1:7401\r\nContent-Type: text/plain\r\n\r\n",
                 b"POST /PIN HTTP/1.0\n", b"GET /?\xff HTTP/2\r\n", b"PUBLISH HTTP/1.1\r\n")
        with Served(post()) as server, Gate(server.port, "--links", "2") as gate:
            for head in heads:
                with Line(gate.port) as line:
                    line.socket.sendall(head + lines)
                    self.assertEqual(line.replies.read(), b"ERR 11 UnknownCommand\n", head)
            with Line(gate.port) as line:
                line.socket.sendall(b"PIN\n" + heads[0] + lines)
                self.assertEqual(line.replies.read(), b"OK 0\nERR 11 UnknownCommand\n")
            with Line(gate.port) as line:
                self.assertEqual([line.ask("PUBLISH"), line.ask("PIN")], ["OK 1 1", "OK 1"])
                self.assertEqual(line.ask("AT city 0 0"), "OK 12 5 7")

    def test_no_end_of_input(self):
        """The last reply comes also where the client goes on sending, and the connection ends."""
        with Served(post()) as server, Gate(server.port, "--links", "2") as gate:
            with Line(gate.port) as line:
                line.socket.sendall(b"QUIT\n" + b"PIN\n" * 100_000)
                self.assertEqual(line.replies.read(), b"BYE\n")

    def test_many_lines_in_one_write(self):
        with Served(post()) as server, Gate(server.port, "--links", "2") as gate:
            with Line(gate.port) as line, Line(server.port) as direct:
                chance = random.Random(3)
                lines = ["PIN", *(query(chance) for _ in range(300)), "UNPIN", "PIN", "QUIT"]
                for one in (line, direct):
                    one.send(*lines)
                self.assertEqual(line.replies.read(), direct.replies.read())


if __name__ == "__main__":
    unittest.main()
