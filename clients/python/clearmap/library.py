"""Finds libclearmap.so.2, and declares its calls as clients/c/clearmap.h has them."""
import ctypes
import functools
import importlib
import os
import pathlib
import sys
from typing import Any, Dict, List, Optional

from .errors import ClearmapError

FILE = "libclearmap.so.2"
VERSION = "0.4."  # the start of the versions of the library that have the calls below
NO_OBSTACLE = 0xFFFF_FFFF  # the distance where there is no obstacle at all
NOWHERE = -2  # the column and the row of no obstacle

DONE, OUTSIDE, CROOKED, MEMORY, BENT = 0, 7, 8, 10, 16  # statuses


class Bytes(ctypes.Structure):
    """clearmap_bytes: the layout of a map in bytes."""

    _fields_ = [
        ("width", ctypes.c_uint32),
        ("height", ctypes.c_uint32),
        ("stride", ctypes.c_size_t),
        ("low", ctypes.c_uint8),
        ("high", ctypes.c_uint8),
    ]


class Bits(ctypes.Structure):
    """clearmap_bits: the layout of a map in bits."""

    _fields_ = [
        ("width", ctypes.c_uint32),
        ("height", ctypes.c_uint32),
        ("stride", ctypes.c_size_t),
        ("blank_bands", ctypes.c_uint64),
        ("tiles", ctypes.c_size_t),
    ]


class CNear(ctypes.Structure):
    """clearmap_near: a distance, and the obstacle it is to."""

    _fields_ = [("dist", ctypes.c_uint32), ("x", ctypes.c_int16), ("y", ctypes.c_int16)]


class CFound(ctypes.Structure):
    """clearmap_found: a cell, and its nearest obstacle."""

    _fields_ = [("x", ctypes.c_uint16), ("y", ctypes.c_uint16), ("near", CNear)]


def _declare(library: ctypes.CDLL) -> None:
    """Gives the calls their argument lists. All but the version return a status."""
    address, u32, length = ctypes.c_void_p, ctypes.c_uint32, ctypes.c_size_t
    library.clearmap_version.restype = ctypes.c_char_p
    library.clearmap_status_text.restype = ctypes.c_char_p
    library.clearmap_status_text.argtypes = [u32]
    for kind, layout in (("bytes", Bytes), ("bits", Bits)):
        on_map: List[Any] = [address, length, ctypes.POINTER(layout), u32, u32]
        calls: Dict[str, List[Any]] = {
            "distances": [u32, u32, address, length],
            "nearest": [u32, u32, address, length],
            "at": [u32, u32, ctypes.POINTER(CNear)],
            "rect": [u32, u32, u32, u32, ctypes.POINTER(CFound)],
            "path": [address, length, ctypes.POINTER(CFound)],
            "clear_of": [address, length, u32, ctypes.POINTER(CFound)],
            "at_many": [address, length, address, length, ctypes.POINTER(length)],
            "clear_many": [address, length, u32, address, length, ctypes.POINTER(length)],
            "costs": [address, length, u32, u32, address, length],
        }
        for name, rest in calls.items():
            call = getattr(library, f"clearmap_{kind}_{name}")
            call.argtypes, call.restype = [*on_map, *rest], u32
        hits: Dict[str, List[Any]] = {"hits": [address], "hits_many": [length, address, length]}
        for name, rest in hits.items():  # which take no metric
            call = getattr(library, f"clearmap_{kind}_{name}")
            call.argtypes, call.restype = [*on_map[:-1], address, length, *rest], u32
    by_bytes, by_bits = ctypes.POINTER(Bytes), ctypes.POINTER(Bits)
    library.clearmap_pack.argtypes = [address, length, by_bytes, address, length, by_bits]
    library.clearmap_unpack.argtypes = [
        address, length, by_bits, ctypes.c_uint8, ctypes.c_uint8, address, length,
    ]  # fmt: skip
    library.clearmap_mark.argtypes = [address, length, by_bits, length]
    for name in ("pack", "unpack", "mark", "paint", "clear"):
        getattr(library, f"clearmap_{name}").restype = u32
    for call in (library.clearmap_paint, library.clearmap_clear):
        call.argtypes = [address, length, by_bits, u32, u32, u32, u32]


def _places() -> List[pathlib.Path]:
    """Where the library may be: next to the package, in the tree that the package is in, and in the
    folder lib or lib64 of the prefix that it is installed to, of Python's, and of /usr/local, which
    the system's loader knows only after `ldconfig`."""
    folder = pathlib.Path(__file__).resolve().parent
    parents = folder.parents
    places = [folder]
    if len(parents) > 2:
        places.append(parents[2] / "crates/libclearmap/out")
    prefixes = [pathlib.Path(sys.prefix), pathlib.Path("/usr/local")]
    if folder.parts[-4:-1] == ("share", "clearmap", "python"):
        prefixes.insert(0, parents[3])
    places += [prefix / name for prefix in prefixes for name in ("lib", "lib64")]
    return [place / FILE for place in places]


def _found() -> str:
    """The file to load. CLEARMAP_LIBRARY names it, or it is in one of the places, or the system's
    loader knows it."""
    named = os.environ.get("CLEARMAP_LIBRARY")
    if named:
        return os.path.abspath(named)
    return next((str(place) for place in _places() if place.is_file()), FILE)


def _why_not(path: str, fault: Optional[OSError]) -> str:
    """What to say if a file can't be loaded."""
    if path == FILE:
        return (
            f"there is no {FILE}: build it by `make lib` in clearmap's tree, install it by "
            "`make install-lib`, or name it in CLEARMAP_LIBRARY"
        )
    if "ISA level" in str(fault):  # of the system's loader, by what the library is marked to need
        return f"the library {path} needs SSE 4.2, which this processor doesn't have"
    return f"the library {path} can't be loaded: {fault}"


@functools.lru_cache(maxsize=None)
def quick() -> ctypes.PyDLL:
    """The same library, whose calls keep the interpreter's lock: for those of some microseconds,
    which would wait for it longer than they run next to busy threads, and which nothing else of
    this process may come between. They neither wait nor call back, so the lock is held no longer
    than they run."""
    loaded = ctypes.PyDLL(library()._name, handle=library()._handle)
    _declare(loaded)
    return loaded


@functools.lru_cache(maxsize=None)
def library() -> ctypes.CDLL:
    """The library, loaded at the first use. ImportError if it isn't there, or is another one.

    The interpreter's lock is released while one of its calls runs: see `quick`."""
    path = _found()
    try:
        loaded = ctypes.CDLL(path)
    except OSError as fault:
        raise ImportError(_why_not(path, fault)) from fault
    try:
        _declare(loaded)
    except AttributeError as fault:
        raise ImportError(f"{path} is no libclearmap {VERSION}x: {fault}") from fault
    version = loaded.clearmap_version().decode("ascii", "replace")
    if not version.startswith(VERSION):
        raise ImportError(f"{path} is libclearmap {version}, where {VERSION}x is wanted")
    return loaded


@functools.lru_cache(maxsize=None)
def numpy() -> Any:
    """The module numpy, imported at the first use."""
    try:
        return importlib.import_module("numpy")
    except ImportError as fault:
        raise ImportError(
            "there is no numpy, which this call needs: install it by `apt-get install "
            "python3-numpy` or `pip install numpy`"
        ) from fault


def pillow() -> Any:
    """The module PIL.Image, imported at the first use."""
    try:
        return importlib.import_module("PIL.Image")
    except ImportError as fault:
        raise ImportError(
            f"want python3-pil, which {sys.executable} doesn't have: Debian's is for "
            "/usr/bin/python3, and for others there is `pip install pillow`"
        ) from fault


def redis() -> Any:
    """The module redis, imported at the first use."""
    try:
        return importlib.import_module("redis")
    except ImportError as fault:
        raise ImportError(
            "there is no redis, which following and publishing need: install it by `apt-get "
            "install python3-redis` or `pip install redis`"
        ) from fault


def check(status: int) -> None:
    """Raises what a status says. The arguments were checked before, so only out of memory is left.
    """
    if status == MEMORY:
        raise MemoryError("libclearmap had no memory for the call")
    if status != DONE:
        text = library().clearmap_status_text(status).decode("ascii", "replace")
        raise ClearmapError(f"libclearmap refuses the call: {text}")
