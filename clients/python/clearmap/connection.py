"""One connection to a server: requests out, replies in, and whether the two are in step."""
import os
import re
import select
import socket
import threading
import time
from contextlib import suppress
from typing import List, NamedTuple, Optional, Sequence, Tuple, TypeVar, Union

from .errors import DETAILS, ENDING, REFUSALS, ConnectionLost, Refused, TimedOut, WrongAnswer
from .requests import Request, wrong

T = TypeVar("T")

LONGEST_REPLY = 128  # bytes of a reply line, with its line feed
PIECE = 65_536  # bytes that are sent or read at once
LONGEST_TIMEOUT = 480 * 3600.0  # seconds; a socket takes no more than some years
ABORTED = "the connection was aborted"


class Limits(NamedTuple):
    """How long to wait for each next byte, and how long a call may take, in seconds."""

    wait: Optional[float]
    call: Optional[float]

    def checked(self) -> "Limits":
        """The same, each at most the longest."""
        for seconds in self:
            if seconds is not None and not seconds > 0:
                raise ValueError(f"a time-out of {seconds} s, where more than 0 or None is wanted")
        most = (None if it is None else min(float(it), LONGEST_TIMEOUT) for it in self)
        return Limits(*most)


def _can_read(stream: socket.socket) -> bool:
    """Whether bytes, or the connection's end, have come."""
    if not hasattr(select, "poll"):
        return bool(select.select([stream], [], [], 0)[0])
    waiting = select.poll()
    waiting.register(stream, select.POLLIN)
    return bool(waiting.poll(0))


class Connection:
    """A socket and what was read from it ahead. It is never opened again once it is closed.

    `busy` is set before the first byte of an exchange is sent, and cleared once the last byte of
    its last reply was taken. If it is set at the start of an exchange, the one before was cut off,
    and the next reply may belong to it.
    """

    def __init__(self, address: Tuple[str, int], limits: Limits) -> None:
        self.busy = False
        self._buffer = bytearray()
        self._timeout, self._call_timeout = limits
        self._until: Optional[float] = None  # the end of the call's time
        self._heard = False  # whether a reply has come
        self._is_aborted = False
        self._process = os.getpid()
        self._closing = threading.RLock()  # so that `abort` finds no other socket of its number
        self._stream: Optional[socket.socket] = None
        where = f"{address[0]}:{address[1]}"
        try:
            self.begun()
            self._stream = socket.create_connection(address, self._wait())
            self._stream.setsockopt(socket.IPPROTO_TCP, socket.TCP_NODELAY, 1)
        except socket.timeout as fault:
            raise TimedOut(self._late(f"no answer at {where}")) from fault
        except OSError as fault:
            raise ConnectionLost(f"no server at {where}: {fault}") from fault

    # ---- its state

    def is_of_this_process(self) -> bool:
        """Whether this process opened it. A forked child has the descriptor too, and is refused."""
        return self._process == os.getpid()

    def is_open(self) -> bool:
        """Whether it is open, as far as is known here, and of this process."""
        return self._stream is not None and self.is_of_this_process()

    def close(self) -> None:
        """Closes this process's descriptor. It sends nothing, and may be called again."""
        stream, self._stream = self._stream, None
        if stream is None:
            return
        if not self.is_of_this_process():  # where the lock may never come back
            stream.close()
            return
        with self._closing:
            stream.close()

    def abort(self) -> None:
        """Ends it from any thread: whoever waits for it raises."""
        self._is_aborted = True
        with self._closing, suppress(OSError):
            if self._stream is not None:
                self._stream.shutdown(socket.SHUT_RDWR)

    def begun(self) -> "Connection":
        """This connection, as the time of a call begins."""
        if self._call_timeout is not None:
            self._until = time.monotonic() + self._call_timeout
        return self

    def has_ended(self) -> bool:
        """Whether it is closed, or the server has ended it. Then it is closed here too."""
        if self._stream is not None and not self.busy and self._unasked() == b"":
            self.close()
        return self._stream is None

    def check_ready(self) -> None:
        """Closes it and raises ConnectionLost if the next reply could belong to an earlier
        question, or there is nobody to ask."""
        if self._stream is None:
            raise ConnectionLost("the connection is closed")
        if self.busy:
            self.close()
            raise ConnectionLost("a call was cut off on this connection, which is closed now")
        unasked = self._unasked()
        if unasked is None:
            return
        self.close()
        if not unasked:
            raise ConnectionLost(self._why_ended())
        text = unasked[:80].decode("ascii", "replace")
        raise ConnectionLost(f"the server sent {text!r} unasked: the connection is closed")

    def _unasked(self) -> Optional[bytes]:
        """What has come unasked: b"" if the server has ended the connection, and None if nothing
        has come."""
        if self._buffer:
            return bytes(self._buffer)
        stream = self._open()
        try:
            return stream.recv(LONGEST_REPLY, socket.MSG_PEEK) if _can_read(stream) else None
        except (OSError, ValueError):  # the latter if it was closed by now
            return b""

    # ---- exchanges

    def ask(self, request: Request[T]) -> Union[T, Refused]:
        """Sends a request, and reads its reply. A refusal is returned, and not raised: everything
        raised here leaves the connection out of step."""
        self._send(request.sent())
        return self._receive(request)

    def ask_all(self, requests: Sequence[Request[T]]) -> List[Union[T, Refused]]:
        """Sends requests in one write, and reads their replies."""
        self._send(b"".join(request.sent() for request in requests))
        return [self._receive(request) for request in requests]

    def counted(self, count: int) -> bytes:
        """The next `count` bytes."""
        while len(self._buffer) < count:
            self._read_more()
        data = bytes(self._buffer[:count])
        del self._buffer[:count]
        return data

    def quit(self) -> None:
        """Says that the connection ends, if somebody still listens."""
        try:
            self._send(b"QUIT\n")
        except ConnectionLost:
            pass

    def _open(self) -> socket.socket:
        if self._stream is None:
            raise ConnectionLost("the connection is closed")
        return self._stream

    def _timed(self) -> socket.socket:
        """The socket, for a wait of at most the time that is left."""
        stream = self._open()
        if self._until is not None:
            stream.settimeout(self._wait())
        return stream

    def _wait(self) -> Optional[float]:
        """How long to wait for the next bytes."""
        if self._until is None:
            return self._timeout
        left = self._until - time.monotonic()
        if left <= 0:
            raise socket.timeout
        return left if self._timeout is None else min(left, self._timeout)

    def _send(self, data: bytes) -> None:
        try:
            for start in range(0, len(data), PIECE):
                self._timed().sendall(data[start : start + PIECE])
        except socket.timeout as fault:
            raise TimedOut(self._late("the server took no bytes")) from fault
        except OSError as fault:
            raise ConnectionLost(self._why_lost(fault)) from fault

    def _read_more(self) -> None:
        """Reads what has come, and waits for it."""
        try:
            data = self._timed().recv(PIECE)
        except socket.timeout as fault:
            raise TimedOut(self._why_late()) from fault
        except OSError as fault:
            raise ConnectionLost(self._why_lost(fault)) from fault
        if not data:
            raise ConnectionLost(self._why_ended())
        self._buffer += data

    def _why_lost(self, fault: OSError) -> str:
        """Who closed the connection: it may have been a signal's handler."""
        if self._stream is None:
            return "the connection was closed in the middle of a call"
        return ABORTED if self._is_aborted else f"the server went away: {fault}"

    def _why_ended(self) -> str:
        """Who ended the connection."""
        return ABORTED if self._is_aborted else "the server ended the connection"

    def _why_late(self) -> str:
        """Possible reasons why no reply comes."""
        if self._heard:
            return self._late("no reply")
        late = self._late("connected, but no worker has answered")
        return f"{late}: are all workers of the server taken?"

    def _late(self, what: str) -> str:
        """What didn't come in time; the system has a limit of its own if none is set here."""
        if self._until is not None and time.monotonic() >= self._until:
            return f"{what} within the call's {self._call_timeout:g} s"
        return what if self._timeout is None else f"{what} within {self._timeout:g} s"

    def _receive(self, request: Request[T]) -> Union[T, Refused]:
        """The next reply line, as its request reads it."""
        line = request.line
        while (end := self._buffer.find(b"\n", 0, LONGEST_REPLY)) < 0:
            if len(self._buffer) >= LONGEST_REPLY:
                raise WrongAnswer(f"no reply line answers '{line[:80]}'")
            self._read_more()
        reply = self._buffer[:end].decode("ascii", "replace")
        del self._buffer[: end + 1]
        self._heard = True
        return self._refusal(reply, line) if reply.startswith("ERR ") else request.read(reply, line)

    def _refusal(self, reply: str, line: str) -> Refused:
        words = reply.split(" ")
        number = int(words[1]) if re.fullmatch(r"\d{1,2}", words[1]) else 0
        name, kind = REFUSALS.get(number, ("", Refused))
        if not name or not re.fullmatch(f"ERR {number} {name}" + DETAILS.get(number, ""), reply):
            raise wrong(reply, line)
        if number in ENDING:
            self.close()
        return kind(number, name, tuple(int(it) if it.isdigit() else it for it in words[3:]), line)
