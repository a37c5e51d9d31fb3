"""A gateway before a server, and clients of it, for the tests."""
import contextlib
import pathlib
import socket
import subprocess
import sys
import threading
import time

HERE = pathlib.Path(__file__).resolve().parent
sys.path[:0] = [str(HERE.parent), str(HERE), str(HERE.parent.parent / "clients/python")]

from served import Served, blank

PATIENCE = 30  # seconds for a reply


def post(width=64, height=48):
    """A raw image with an obstacle at column 5 of row 7."""
    rows = bytearray(blank(width, height))
    across = (width + 7) // 8
    rows[len(rows) - across * height + 7 * across] |= 0x80 >> 5
    return bytes(rows)


class Gate:
    """A gateway to the server of a port. It is killed at the end of a `with`. `log` is a file for
    its standard error, `before` the words of a command that runs it."""

    def __init__(self, port, *flags, log=subprocess.PIPE, before=()):
        words = [sys.executable, str(HERE / "clearmap_gateway.py"), "--port", str(port), *flags]
        self.process = subprocess.Popen([*before, *words], stdout=subprocess.PIPE, stderr=log)
        said = self.process.stdout.readline().decode().split()
        self.port = int(said[1]) if said[:1] == ["LISTENING"] else None

    def __enter__(self):
        return self

    def __exit__(self, *_):
        self.end()

    def end(self):
        """Kills it; what it said on standard error."""
        self.process.kill()
        said = self.process.communicate()[1] or b""
        self.process.stdout.close()
        return said.decode()

    def is_served(self):
        """Whether a client that connects now is answered."""
        with Line(self.port) as line, contextlib.suppress(OSError):
            line.send("HELLO")
            return line.reply() == "ERR 11 UnknownCommand"

    def memory(self):
        """Its resident memory in MB."""
        status = pathlib.Path(f"/proc/{self.process.pid}/status").read_text()
        return int(status.split("VmRSS:")[1].split()[0]) / 1024


class Line:
    """One client's connection, by lines."""

    def __init__(self, port):
        self.socket = socket.create_connection(("127.0.0.1", port), PATIENCE)
        self.socket.setsockopt(socket.IPPROTO_TCP, socket.TCP_NODELAY, 1)
        self.replies = self.socket.makefile("rb")

    def __enter__(self):
        return self

    def __exit__(self, *_):
        self.close()

    def close(self):
        self.replies.close()
        self.socket.close()

    def send(self, *lines, data=b""):
        self.socket.sendall("".join(line + "\n" for line in lines).encode("latin-1") + data)

    def reply(self):
        return self.replies.readline().decode("latin-1").rstrip("\n")

    def ask(self, line, data=b""):
        self.send(line, data=data)
        return self.reply()

    def dump(self):
        """The reply to DUMP, with its bytes."""
        reply = self.ask("DUMP")
        count = int(reply.split()[1]) if reply.startswith("OK ") else 0
        return reply, self.replies.read(count)

    def is_closed(self):
        """Whether the other side ends the connection now, without a reply."""
        return self.replies.read() == b""

    def is_silent(self, seconds=0.3):
        """Whether no reply comes in this time."""
        self.socket.settimeout(seconds)
        try:
            return self.socket.recv(1, socket.MSG_PEEK) is None
        except socket.timeout:
            return True
        finally:
            self.socket.settimeout(PATIENCE)


class Answering:
    """What listens as a server does, and returns the lines of each connection with these."""

    def __init__(self, replies):
        self.listener = socket.create_server(("127.0.0.1", 0))
        self.port, self.streams = self.listener.getsockname()[1], []
        threading.Thread(target=self.serve, args=(replies,), daemon=True).start()

    def serve(self, replies):
        with contextlib.suppress(OSError):  # the listener was closed
            while True:
                stream = self.listener.accept()[0]
                self.streams.append(stream)
                threading.Thread(target=self.answer, args=(stream, replies), daemon=True).start()

    def answer(self, stream, replies):
        with contextlib.suppress(OSError):
            for reply in replies:
                if stream.recv(100):
                    stream.sendall(reply)

    def __enter__(self):
        return self

    def __exit__(self, *_):
        for stream in [self.listener, *self.streams]:
            stream.close()


def until(true, seconds=20):
    """Whether something comes true in this time."""
    end = time.monotonic() + seconds
    while not true():
        if time.monotonic() > end:
            return False
        time.sleep(0.02)
    return True
