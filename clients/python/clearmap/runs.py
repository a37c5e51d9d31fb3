"""The distances of all cells by runs of the program, where the library isn't: `clearmap dist` reads
an image, and writes a table."""
from __future__ import annotations

import contextlib
import os
import subprocess
import threading
from typing import IO, TYPE_CHECKING

from .errors import ClearmapError
from .library import NO_OBSTACLE, library, numpy

if TYPE_CHECKING:
    from .rows import Distances

LONGEST = 120  # seconds for one table
HEAD = 16  # bytes that have an image's sides, at least
AT_ONCE = 2**22  # bytes of a table that are read at once


class TableError(ClearmapError):
    """No table can be made; its text says why."""


def no_library() -> str:
    """Why nothing can be computed in this process; an empty text if it can be."""
    try:
        library()
    except ImportError as fault:
        return str(fault)
    return ""


def workers() -> int:
    """How many threads share the rows of a table."""
    return min(16, os.cpu_count() or 1)


def by_program(program: str, image: bytes, metric: str, edge: str) -> Distances:
    """The distances of a plain PBM image, as a server dumps it."""
    width, height = image[:HEAD].split(b"\n", 2)[1].split()
    words = [program, "dist", "--metric", metric, "--edge", edge, "--workers", str(workers())]
    try:
        run = subprocess.Popen(words, stdin=subprocess.PIPE, stdout=subprocess.PIPE)
    except OSError as fault:
        raise TableError(f"clearmap dist can't be run: {fault}") from None
    assert run.stdin is not None and run.stdout is not None
    threading.Thread(target=_feed, args=(run.stdin, image), daemon=True).start()
    late = threading.Timer(LONGEST, run.kill)
    late.start()
    try:
        with run.stdout:
            return read_table(run.stdout, int(width), int(height))
    except TableError as fault:
        raise TableError(f"clearmap dist ends with status {run.wait()}: {fault}") from None
    finally:
        late.cancel()
        run.wait()


def _feed(source: IO[bytes], image: bytes) -> None:
    """Writes an image to a run, which may end before it has read all."""
    with contextlib.suppress(BrokenPipeError), source:
        source.write(image)


def read_table(table: IO[bytes], width: int, height: int) -> Distances:
    """The numbers of a table of distances, read while it is being written; all are NO_OBSTACLE if
    the map has none."""
    np = numpy()
    distances = np.full(width * height, NO_OBSTACLE, np.uint32)
    done, rest = 0, b""
    while data := table.read(AT_ONCE):
        lines, _, rest = (rest + data).rpartition(b"\n")
        first = lines or rest
        if not first[:1].isdigit():
            return _no_numbers(table, first, distances.reshape(height, width))
        numbers = np.fromstring(lines, np.uint32, sep=" ")
        distances[done : done + numbers.size] = numbers[: distances.size - done]
        done += numbers.size
    if done != width * height or rest:
        raise TableError(f"clearmap dist wrote {done} distances of {width} by {height} cells")
    return distances.reshape(height, width)  # type: ignore[no-any-return]


def _no_numbers(table: IO[bytes], first: bytes, none: Distances) -> Distances:
    """What a table says that has no numbers: that there is no obstacle, or a fault."""
    while table.read(AT_ONCE):
        pass
    if first.startswith(b"-"):
        return none
    raise TableError(first[:100].decode("ascii", "replace").strip())
