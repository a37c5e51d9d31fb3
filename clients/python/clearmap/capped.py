"""Connections to Redis that read no reply of more bytes than what is asked for can have."""
from typing import Any

from .errors import ClearmapError


class Capped:
    """A stream that gives at most `left` bytes."""

    def __init__(self, stream: Any, most: int) -> None:
        self._stream, self.left = stream, most

    def recv(self, size: int) -> bytes:
        data: bytes = self._stream.recv(size)
        self._count(len(data))
        return data

    def recv_into(self, buffer: Any, *sizes: int) -> int:
        count: int = self._stream.recv_into(buffer, *sizes)
        self._count(count)
        return count

    def _count(self, count: int) -> None:
        self.left -= count
        if self.left < 0:
            raise ClearmapError("Redis sends a longer reply than any that a follower asks for")

    def __getattr__(self, name: str) -> Any:
        return getattr(self._stream, name)


def capped(client: Any, most: int) -> Any:
    """A client of Redis whose later connections read at most `most` bytes for each reply, with
    what comes after it."""
    pool = client.connection_pool
    kind = pool.connection_class

    def connect(self: Any) -> Capped:
        return Capped(kind._connect(self), most)

    def read_response(self: Any, *words: Any, **named: Any) -> Any:
        if self._sock is not None:
            self._sock.left = most
        return kind.read_response(self, *words, **named)

    own = {"_connect": connect, "read_response": read_response}
    pool.connection_class = type("CappedConnection", (kind,), own)
    return client
