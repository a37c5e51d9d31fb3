"""What check_limits.py and check_together.py try with: checks that count, runs of the program, and
connections."""
import pathlib
import socket
import struct
import subprocess
import sys

sys.path.append(str(pathlib.Path(__file__).resolve().parent.parent))  # served.py
from served import PROGRAM

PATIENCE = 120  # seconds for each wait
BATCH = 4096  # lines in one write


class Checks:
    """How much was tried and how much of it was wrong; and the longest reply line that was seen."""

    def __init__(self):
        self.tried = self.failed = self.longest_reply = 0

    def wrong(self, text):
        self.failed += 1
        print(text, flush=True)

    def check(self, what, got, wanted):
        self.tried += 1
        if got != wanted:
            self.wrong(f"{what}: {str(got)[:200]!r} where {str(wanted)[:200]!r} was wanted")


CHECKS = Checks()
TRIES = {}  # by what stands in a row's first column
check = CHECKS.check


def row(what):
    """Registers the try of a row. It is called with the row's numbers and its answers."""

    def register(call):
        TRIES[what] = call
        return call

    return register


def image(width, height):
    """A plain image whose first cell is an obstacle."""
    rows = ["0" * width] * height
    rows[0] = "1" + "0" * (width - 1)
    return f"P1\n{width} {height}\n{chr(10).join(rows)}\n".encode()


def ran(words, given):
    """The status and the text of a run of the program."""
    run = subprocess.run(
        [PROGRAM, *words],
        input=given,
        stdout=subprocess.PIPE,
        stderr=subprocess.DEVNULL,
        timeout=PATIENCE,
    )
    return run.returncode, run.stdout.decode().rstrip("\n")


def asked(port, given):
    """The status and the lines of a run of `ask`."""
    code, text = ran(["ask", "--port", str(port)], given)
    return code, text.split("\n")


def refused(command, flag, *values):
    """Each value of a flag is refused: status 2, and nothing on standard output."""
    for value in values:
        CHECKS.check(
            f"{command} {flag} {value}", ran([*command.split(), f"{flag}={value}"], b""), (2, "")
        )


class Line:
    """A connection of a server."""

    def __init__(self, port):
        self.socket = socket.create_connection(("127.0.0.1", port), PATIENCE)
        self.come = b""

    def send(self, text):
        self.socket.sendall(text if isinstance(text, bytes) else text.encode("latin-1"))

    def more(self):
        """Receives; whether something came."""
        data = self.socket.recv(2**20)
        self.come += data
        return bool(data)

    def reply(self):
        """The next reply line; none if the connection ends before it."""
        while b"\n" not in self.come:
            if not self.more():
                return None
        line, self.come = self.come.split(b"\n", 1)
        CHECKS.longest_reply = max(CHECKS.longest_reply, len(line) + 1)
        return line.decode()

    def ask(self, text):
        self.send(text)
        return self.reply()

    def take(self, count):
        """The next `count` bytes."""
        while len(self.come) < count:
            if not self.more():
                break
        data, self.come = self.come[:count], self.come[count:]
        return data

    def rest(self):
        """What comes until the connection ends."""
        try:
            while self.more():
                pass
        except ConnectionResetError:
            pass
        return self.come

    def silent(self, seconds):
        """Whether nothing comes in this time."""
        self.socket.settimeout(seconds)
        try:
            return not self.more()
        except socket.timeout:
            return True
        finally:
            self.socket.settimeout(PATIENCE)

    def once(self, text):
        """All that answers this text, up to the end. The port is free again at once."""
        with self.socket:
            self.send(text)
            self.rest()
            self.socket.setsockopt(socket.SOL_SOCKET, socket.SO_LINGER, struct.pack("ii", 1, 0))
        return self.come

    def reverts(self, first, count):
        """Sends this many REVERTs, and returns how many had the next place."""
        good = 0
        for start in range(first, first + count, BATCH):
            places = range(start, min(start + BATCH, first + count))
            wanted = "".join(f"OK {place}\n" for place in places).encode()
            self.send(b"REVERT\n" * len(places))
            good += len(places) if self.take(len(wanted)) == wanted else 0
        return good

    def pushed(self, data, times):
        """Whether data is accepted this many times, and the connection then ended in order."""
        try:
            for _ in range(times):
                self.socket.sendall(data)
            self.socket.shutdown(socket.SHUT_WR)
            return self.reply() is not None and self.rest() == b""
        except (BrokenPipeError, ConnectionResetError):
            return False


def replies(lines, text, count):
    """What each connection is answered; all have sent before the first is read."""
    for line in lines:
        line.send(text)
    return [[line.reply() for _ in range(count)] for line in lines]
