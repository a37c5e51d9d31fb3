"""A server of one's own: `clearmap serve` of a map, which ends with this process. No ROS is wanted,
and nothing here is proved."""
import contextlib
import ctypes
import functools
import os
import signal
import subprocess
import threading
from concurrent.futures import Future
from typing import TYPE_CHECKING, List, Tuple

from clearmap import RosError

if TYPE_CHECKING:
    Process = subprocess.Popen[bytes]

CONNECTIONS = "1000000"
DEATH_SIGNAL = 1  # PR_SET_PDEATHSIG of prctl


def start_server(program: str, edge: str, image: bytes) -> Tuple["Process", int]:
    """Starts a server of a PBM image, and says at which port it listens."""
    words = [program, "serve", "--connections", CONNECTIONS, "--port", "0", "--edge", edge]
    try:
        server = start_bound(words)
    except OSError as fault:
        raise RosError(f"the program '{program}' can't be run: {fault.strerror}") from None
    assert server.stdin is not None and server.stdout is not None
    with contextlib.suppress(BrokenPipeError), server.stdin:
        server.stdin.write(image)  # where it can't, what the server prints says why
    with server.stdout:
        said = server.stdout.readline().split()
    if len(said) != 2 or said[0] != b"LISTENING":
        server.kill()
        server.wait()
        line = b" ".join(said).decode("ascii", "replace")
        raise RosError(f"'{program} serve' said '{line}'")
    return server, int(said[1])


def start_bound(words: List[str]) -> "Process":
    """Starts a program with pipes, which the system kills when this process ends, killed or not.
    The system goes by the thread that started it, so that one waits for the program's end."""
    started: "Future[Process]" = Future()
    threading.Thread(target=_attend, args=(words, started), daemon=True).start()
    return started.result()


def _attend(words: List[str], started: "Future[Process]") -> None:
    """Starts a program, and waits for its end."""
    pipe, prctl = subprocess.PIPE, ctypes.CDLL(None).prctl  # which isn't looked up in the child
    bind = functools.partial(_bind, prctl, os.getpid())
    try:
        process = subprocess.Popen(words, stdin=pipe, stdout=pipe, preexec_fn=bind)
    except BaseException as fault:
        started.set_exception(fault)
    else:
        started.set_result(process)
        process.wait()


def _bind(prctl: "ctypes._FuncPointer", parent: int) -> None:
    """In the child: asks for the signal, and ends if the parent ended before."""
    if prctl(DEATH_SIGNAL, signal.SIGKILL, 0, 0, 0) or os.getppid() != parent:
        os._exit(1)
