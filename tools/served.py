"""A server of a map, for the scripts and tests that ask one: the built `clearmap serve`, or that of
the program which CLEARMAP names.

    with Served(blank(64, 64), "--log", "20") as server:
        client = clearmap.Client(server.port)
"""
import os
import pathlib
import subprocess

PROGRAM = os.path.abspath(os.environ.get("CLEARMAP") or pathlib.Path(__file__).resolve().parent.parent / "crates/clearmap/out/clearmap")


def blank(width, height):
    """A raw image without an obstacle."""
    return b"P4\n%d %d\n" % (width, height) + bytes((width + 7) // 8 * height)


class Served:
    """A server of an image, with these flags, on a port that the system picks where none is asked
    for. It is killed at the end of a `with`, or by `end`."""

    def __init__(self, image, *flags, connections=1000, port=0):
        words = [PROGRAM, "serve", "--connections", str(connections), "--port", str(port), *flags]
        self.process = subprocess.Popen(words, stdin=subprocess.PIPE, stdout=subprocess.PIPE)
        with self.process.stdin:
            self.process.stdin.write(image)
        said = self.process.stdout.readline().decode()
        if not said.startswith("LISTENING "):
            self.end()
            raise RuntimeError(f"no server listens: {said.strip()}")
        self.port = int(said.split()[1])

    def __enter__(self):
        return self

    def __exit__(self, *_):
        self.end()

    def end(self):
        """Kills the server."""
        self.process.kill()
        self.process.wait()
        self.process.stdout.close()

    def last(self):
        """The last line and the status of a server whose connections were all served."""
        return self.process.stdout.read().decode().strip(), self.process.wait(60)
