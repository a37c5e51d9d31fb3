"""The place that a publisher publishes from, as followers read it: a host, its server's port, and
the host's machine, since several may have one name."""
import hashlib
import os
import pathlib
import re
import socket
from typing import NamedTuple, Optional

MACHINE_ID = pathlib.Path("/etc/machine-id")
BOOT_ID = pathlib.Path("/proc/sys/kernel/random/boot_id")
FIRST = pathlib.Path("/proc/1/stat")
WORD = re.compile(r"[A-Za-z0-9_.-]{1,64}")


class Here(NamedTuple):
    """A place on this machine; what its start is known by, "" if that tells nothing; and when that
    was, by `clock.now`: 0, but for a container with a boot of its own."""

    place: str
    boot: str
    started: float


def here_of(port: int, word: Optional[str] = None) -> Here:
    """The place of a server on this machine. A word stands for the host and the machine: those of a
    container may be its image's."""
    if word is not None:
        return Here(f"{word}:{port}", "", 0.0)
    machine = _hashed(MACHINE_ID)
    if not machine:
        raise ValueError(f"no {MACHINE_ID} tells this machine from others: name it by --place WORD")
    return Here(f"{socket.gethostname()}:{port} {machine}", _hashed(BOOT_ID), _started())


def _hashed(path: pathlib.Path) -> str:
    """Some digits of the hash of an identity of 128 bits, which is for nobody else to know
    (machine-id(5)); "" if there is none."""
    try:
        told = path.read_text("ascii").strip().replace("-", "")
    except (OSError, UnicodeDecodeError):
        return ""
    if not re.fullmatch("[0-9a-f]{32}", told):
        return ""
    return hashlib.sha256(f"clearmap {told}".encode()).hexdigest()[:8]


def _started() -> float:
    """When the first process was started."""
    try:
        return int(FIRST.read_text().rpartition(")")[2].split()[19]) / os.sysconf("SC_CLK_TCK")
    except (OSError, ValueError, IndexError):  # it may be hidden
        return 0.0
