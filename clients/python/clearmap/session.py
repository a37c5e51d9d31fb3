"""A session with a server: calls that wait for one another, each on a connection in step."""
import os
import threading
from typing import Callable, NoReturn, Optional, Union

from .connection import Connection, Limits
from .errors import ConnectionLost, OutOfRange, Refused, Size, extent, raised
from .requests import T, whole
from .size import check_size, find_size, size_of

FORKED = "a forked process can't use its parent's connection: it makes a client of its own"


class Session:
    """What a client of a server is apart from its commands: one connection after another, and the
    size of their map. See `Client`."""

    def __init__(
        self, port: object, host: str, limits: Limits, size: Optional[Size], reconnect: bool
    ) -> None:
        self._address = host, _port_of(port, host)
        self._limits, self._reconnect = limits, reconnect
        self._size = None if size is None else size_of(size)
        self._lock = threading.RLock()
        self._process = os.getpid()
        self._is_closed = False
        self._connection = self._connected()

    def __exit__(self, *_: object) -> None:
        self.close()

    def __reduce__(self) -> NoReturn:
        raise TypeError("a Client is one connection, which can't be copied or pickled")

    def close(self) -> None:
        """Ends the connection, once the call of another thread is done: what was accepted stays
        accepted, and a pin is left. It may be called again."""
        if self._process != os.getpid():
            self._connection.close()
            return
        with self._lock:
            self._is_closed = True
            connection = self._connection
            if connection.is_open() and not connection.busy:
                connection.busy = True  # whose reply nobody reads
                connection.quit()
            connection.close()

    def abort(self) -> None:
        """Ends the connection at once, from any thread or a signal's handler. A call that waits
        raises ConnectionLost, and may have been accepted. As after `close`, nothing reconnects."""
        self._is_closed = True
        if self._process == os.getpid():
            self._connection.abort()
        else:
            self._connection.close()

    # ---- the map

    @property
    def size(self) -> Size:
        """Columns and rows of the served map. If they aren't known, the first use asks for them, by
        two writes, and with a pin if there is none."""
        return self._size or raised(self._exchange(self._found_size))

    @property
    def width(self) -> int:
        """Columns of the served map, as `size` has them."""
        return self.size[0]

    @property
    def height(self) -> int:
        """Rows of the served map, as `size` has them."""
        return self.size[1]

    def _found_size(self, connection: Connection) -> Union[Size, Refused]:
        """Asks for the size, and keeps it."""
        found = find_size(connection)
        if not isinstance(found, Refused):
            self._size = found
        return found

    # ---- the connection

    def _exchange(self, work: Callable[[Connection], T], of: Optional[Connection] = None) -> T:
        """Does a request and its replies, on the connection of a pin or the newest, with nothing
        between them. What `work` raises closes the connection; an error that leaves it in step, as
        a refusal, is returned."""
        if self._process != os.getpid():
            (of or self._connection).close()
            raise ConnectionLost(FORKED)
        with self._lock:
            connection = of.begun() if of else self._newest()
            try:
                connection.check_ready()
                connection.busy = True
                answer = work(connection)
                if isinstance(answer, OutOfRange):
                    self._tell_extent(answer, connection)
            except BaseException:
                connection.close()
                raise
            connection.busy = False
            return answer

    def _tell_extent(self, refused: OutOfRange, connection: Connection) -> None:
        """Adds to a refusal which cells there are, which is asked for if it isn't known."""
        size = self._size or self._found_size(connection)
        if not isinstance(size, Refused):
            refused.cure = extent(size)

    def _newest(self) -> Connection:
        """The connection, or a new one if it has ended and that is wanted."""
        if self._reconnect and not self._is_closed and self._connection.has_ended():
            return self._connected()
        return self._connection.begun()

    def _connected(self) -> Connection:
        """A new connection, whose map has the size that is known. One that isn't is asked for if
        later connections have to be to a map of that size."""
        connection = Connection(self._address, self._limits)
        connection.busy = True  # an interrupt leaves none whose map isn't checked
        self._connection = connection
        try:
            if self._is_closed:
                raise ConnectionLost("the connection is closed")
            if self._size is not None:
                raised(check_size(connection, self._size))
            elif self._reconnect:
                raised(self._found_size(connection))
        except BaseException:
            connection.close()
            raise
        connection.busy = False
        return connection


def _port_of(port: object, host: object) -> int:
    """A port's number. Higher ones would be taken for others, without their high bits."""
    if not isinstance(host, str):
        raise TypeError(
            f"Client({port!r:.80}, {host!r:.80}): the port comes first, and the host after it is a "
            "text, as Client(7400, 'localhost')"
        )
    if isinstance(port, str) and not port.isdecimal():
        raise TypeError(f"a port of {port!r:.80}, where a number is wanted, as Client(7400)")
    if isinstance(port, bool):
        raise TypeError(f"a port of {port}, where a number is wanted, as Client(7400)")
    number = int(port) if isinstance(port, str) else whole(port)
    if not 0 <= number < 1 << 16:
        raise ValueError(f"a port of {number}, where one up to 65535 is wanted")
    return number
