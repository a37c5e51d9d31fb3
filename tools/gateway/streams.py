"""A client's connection: what it sends waits to be taken, and what it is sent to be read by it."""
import asyncio
from typing import Optional, cast

from limits import LAST_READ, READ, READ_AWAY, UNREAD, UNTAKEN, Share

INPUT = memoryview(bytearray(READ))  # what was read last, by whichever connection


class Gone(Exception):
    """The client went away, or let others wait too long."""


class Stream(asyncio.BufferedProtocol):
    """The bytes of one connection. `_advance` is called whenever something has come or went out."""

    def __init__(self, patience: float) -> None:
        self._loop = asyncio.get_running_loop()
        self._patience = patience
        self._pending = bytearray()
        self._wake: "Optional[asyncio.Future[None]]" = None
        self._stalled: Optional[asyncio.TimerHandle] = None
        self._ending: Optional[asyncio.TimerHandle] = None  # while the last bytes are read away
        self._away = 0
        self._is_full = False  # replies wait to be taken
        self._is_paused = False  # what was sent waits to be read
        self._is_last = False  # no more bytes come
        self._is_over = False  # no more replies go out
        self._transport: asyncio.Transport

    def _advance(self) -> None:
        """Does what can be done now."""
        raise NotImplementedError

    # ---- what asyncio calls

    def connection_made(self, transport: asyncio.BaseTransport) -> None:
        self._transport = cast(asyncio.Transport, transport)
        self._transport.set_write_buffer_limits(UNTAKEN)

    def get_buffer(self, _: int) -> memoryview:
        return INPUT

    def buffer_updated(self, count: int) -> None:
        if self._ending is not None:
            return self._read_away(count)
        self._pending += INPUT[:count]
        return self._advance()

    def eof_received(self) -> bool:
        self._is_last = True
        self._advance()
        return True

    def pause_writing(self) -> None:
        self._is_full = True
        self._stalled = self._loop.call_later(self._patience, self._transport.abort)

    def resume_writing(self) -> None:
        self._is_full = False
        self._stop_timers()
        self._advance()

    def connection_lost(self, fault: Optional[Exception]) -> None:
        self._is_last = self._is_over = True
        self._stop_timers()
        self._advance()

    def _stop_timers(self) -> None:
        for timer in (self._stalled, self._ending):
            if timer is not None:
                timer.cancel()

    # ---- in and out

    def _write(self, text: bytes) -> None:
        if text and not self._transport.is_closing():
            self._transport.write(text)

    def _regulate(self) -> None:
        """Stops reading if enough waits to be done."""
        pauses = len(self._pending) > UNREAD and not self._is_over
        if pauses == self._is_paused or self._transport.is_closing() or self._is_last:
            return
        if self._ending is None:
            self._is_paused = pauses
            self._transport.pause_reading() if pauses else self._transport.resume_reading()

    async def _counted(self, count: int, share: Share) -> bytearray:
        """The next `count` bytes that the client sends, which take room as they come. Gone if it
        lets others wait for them longer than the patience; while they wait for room it doesn't."""
        body, patience = bytearray(), self._patience
        while len(body) < count:
            part = self._pending[: min(count - len(body), share.left())]
            if part:
                share.take(len(part))
                body += part
                del self._pending[: len(part)]
                continue
            if self._is_over or (self._is_last and len(body) + len(self._pending) < count):
                raise Gone
            self._regulate()
            if self._pending:
                await self._woken()
            else:
                patience -= await self._woken(patience)
        return body

    async def _room_to_write(self) -> None:
        """Waits until the client has taken what it was sent, or is gone."""
        while self._is_full and not self._is_over:
            await self._woken()

    async def _woken(self, most: Optional[float] = None) -> float:
        """Waits until something has come, or went out; how long. Gone after this many seconds."""
        wake, begun = self._loop.create_future(), self._loop.time()
        self._wake = wake
        try:
            await asyncio.wait_for(wake, most)
        except asyncio.TimeoutError:
            raise Gone from None
        return self._loop.time() - begun

    def _wake_task(self) -> None:
        if self._wake is not None and not self._wake.done():
            self._wake.set_result(None)

    # ---- the end

    def _end(self) -> None:
        """Ends the connection after what was written. What the client goes on sending is read away:
        a connection that is closed with unread bytes loses its last reply."""
        if self._is_last or self._transport.is_closing():
            self._transport.close()
        elif self._ending is None:
            try:
                self._transport.write_eof()
            except OSError:  # the client is gone
                self._transport.abort()
                return
            self._transport.resume_reading()
            self._read_away(0)

    def _read_away(self, count: int) -> None:
        """Bytes that nobody reads have come."""
        self._away += count
        if self._ending is not None:
            self._ending.cancel()
        if self._away > READ_AWAY:
            self._transport.close()
        else:
            self._ending = self._loop.call_later(LAST_READ, self._transport.close)
