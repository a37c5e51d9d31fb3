"""Redis, publishers and served maps of known versions, for the tests of a fleet."""
import atexit
import contextlib
import io
import pathlib
import random
import signal
import socket
import subprocess
import sys
import tempfile
import threading
import time

HERE = pathlib.Path(__file__).resolve().parent
sys.path[:0] = [str(HERE.parent), str(HERE), str(HERE.parent.parent / "clients/python")]

import numpy as np
import redis as redis_of_python

import clearmap
import store
from clearmap import clock
from clearmap.records import Keys, read_record, read_tile, tiles_of
from places import here_of
from served import PROGRAM, Served, blank
from source import Copy, Seen

signal.signal(signal.SIGTERM, signal.default_int_handler)  # so that folders are removed then too
PATIENCE = 30  # seconds until something that has to happen is given up


def until(true, seconds=PATIENCE):
    """Whether something comes true in this time."""
    end = time.monotonic() + seconds
    while not true():
        if time.monotonic() > end:
            return False
        time.sleep(0.02)
    return True


def free_port():
    """A port that nobody has."""
    with contextlib.closing(socket.create_server(("127.0.0.1", 0))) as stream:
        return stream.getsockname()[1]


class Redis:
    """A redis-server of its own, in a folder of its own, which can be killed and started again on
    its port. Flags say what it keeps on the disk, and more; `user` is a name and a password with an
    @ after them."""

    def __init__(self, *flags, user=""):
        self.folder = tempfile.TemporaryDirectory()
        self.flags = flags
        for _ in range(5):
            self.port = free_port()
            self.url = f"redis://{user}127.0.0.1:{self.port}"
            if self.start():
                return
        raise RuntimeError(pathlib.Path(self.folder.name, "log").read_text())

    def __enter__(self):
        return self

    def __exit__(self, *_):
        self.kill()
        self.folder.cleanup()

    def start(self):
        """Whether it answers soon; it ends by itself if somebody has its port."""
        words = ["redis-server", "--port", str(self.port), "--bind", "127.0.0.1"]
        words += ["--dir", self.folder.name, "--save", "", "--logfile", "log", *self.flags]
        self.process = subprocess.Popen(words, stdout=subprocess.DEVNULL)
        atexit.register(self.kill)  # where the test is ended
        self.client = redis_of_python.Redis.from_url(self.url, socket_timeout=PATIENCE)
        return until(lambda: self.process.poll() is not None or self.answers()) and self.answers()

    def answers(self):
        try:
            return self.client.time()
        except redis_of_python.RedisError:
            return False

    def kill(self):
        if self.process.returncode is None:
            self.process.kill()
            self.process.wait()

    def stored(self, name):
        """The orders that are kept, each with its record; each tile of each is there and whole."""
        keys = Keys(name)
        records = {int(k): read_record(v) for k, v in self.client.hgetall(keys.versions).items()}
        tiles = self.client.hgetall(keys.tiles)
        for record in records.values():
            for wanted, tile in zip(record.tiles, tiles_of(record.size)):
                read_tile(tiles.get(wanted), wanted, tile)
        newest = int(self.client.get(keys.newest) or 0)
        if newest != max(records, default=0):
            raise AssertionError(f"{newest} is told to be the newest of {sorted(records)}")
        return records

    def tiles(self, name):
        return set(self.client.hkeys(Keys(name).tiles))

    def strays(self, name):
        """Tiles that no kept version names."""
        named = (record.tiles for record in self.stored(name).values())
        return self.tiles(name) - set().union(*named)


class Publishing:
    """A process of clearmap-publish; `said` gathers its standard error, unless that goes into a
    file `log`."""

    def __init__(self, port, url, *words, name="yard", script=HERE / "clearmap_publish.py",
                 out=subprocess.DEVNULL, log=subprocess.PIPE):  # fmt: skip
        line = [sys.executable, str(script), "--port", str(port), "--redis", url, "--name", name]
        self.process = subprocess.Popen([*line, *words], stdout=out, stderr=log, text=True)
        self.said = []
        self._reader = threading.Thread(target=self._read, daemon=True)
        self._reader.start()

    def _read(self):
        for line in self.process.stderr or ():
            self.said.append(line.rstrip("\n"))

    def __enter__(self):
        return self

    def __exit__(self, *_):
        self.end(signal.SIGKILL)

    def says(self, piece):
        """Whether a line with this in it comes."""
        return until(lambda: any(piece in line for line in list(self.said)))

    def end(self, number=signal.SIGTERM):
        """Ends it; its status."""
        if self.process.returncode is None:
            self.process.send_signal(number)
        status = self.process.wait(PATIENCE)
        self._reader.join(PATIENCE)
        if self.process.stderr:
            self.process.stderr.close()
        return status


class Answering:
    """What listens as a server does, and returns the lines of each connection with these."""

    def __init__(self, replies):
        self.listener, self.replies = socket.create_server(("127.0.0.1", 0)), replies
        self.port = self.listener.getsockname()[1]
        threading.Thread(target=self.serve, daemon=True).start()

    def serve(self):
        with contextlib.suppress(OSError):  # the listener was closed
            while True:
                with self.listener.accept()[0] as stream, contextlib.suppress(OSError):
                    for reply in self.replies:
                        if stream.recv(100):
                            stream.sendall(reply)
                    stream.recv(100)

    def __enter__(self):
        return self

    def __exit__(self, *_):
        self.listener.close()


class Painter:
    """Paints at random on a server, and knows the cells of each version that it published."""

    def __init__(self, port, seed=1):
        self.client = clearmap.Client(port, timeout=PATIENCE, checkpoints=True)
        self.random, self.known = random.Random(seed), {}
        self.keep()

    def __enter__(self):
        return self

    def __exit__(self, *_):
        self.client.close()

    def keep(self):
        """Notes the newest version, which nobody else publishes; its number."""
        with self.client.pin() as pinned:
            self.known[pinned.version] = pinned.dump()
            return pinned.version

    def publish(self, changes=3):
        """Publishes some random changes, and notes the version."""
        width, height = self.client.size
        for _ in range(changes):
            x, y = self.random.randrange(width), self.random.randrange(height)
            x1, y1 = (min(side, start + self.random.randint(1, 9))
                      for side, start in ((width, x), (height, y)))  # fmt: skip
            draw = self.random.choice((self.client.paint, self.client.paint, self.client.clear))
            draw(x, y, x1, y1)
        with contextlib.suppress(clearmap.VersionsFull):
            self.client.publish()
        self.client.collect()
        return self.keep()

    def grid(self, number):
        """The cells of a version that was published."""
        head, _, digits = self.known[number].partition(b"\n")[2].partition(b"\n")
        width, height = map(int, head.split())
        cells = np.frombuffer(digits.replace(b"\n", b""), np.uint8)
        return cells.reshape(height, width) == ord("1")


class Direct:
    """Publishes grids without a server, as a publisher does."""

    def __init__(self, redis, name="yard", keep=8, port=7400, takes_over=False):
        self.store = store.Store(redis.client, name, keep, here_of(port), takes_over)
        self.count = 0
        self.store.take()

    def show(self, grid, edge="open", ago=0):
        """Publishes a grid as the next version, as looked at some seconds ago; its record."""
        self.count += 1
        seen = Seen("0123456789abcdef", self.count)
        return self.store.publish(Copy(seen, clearmap.Map(grid, edge)), clock.now() - ago)


def nearest_of(image, edge="open"):
    """What `clearmap dist` prints for each cell of an image, by rows: its nearest obstacle."""
    words = [PROGRAM, "dist", "--nearest", "--edge", edge]
    told = subprocess.run(words, input=image, capture_output=True, check=True).stdout
    return clearmap.read_distances(io.StringIO(told.decode()))


def room(width=300, height=400, seed=7, share=0.01):
    """A raw image of cells at random."""
    cells = np.random.default_rng(seed).random((height, width)) < share
    head = b"P4\n%d %d\n" % (width, height)
    return head + np.packbits(cells, axis=1).tobytes()
