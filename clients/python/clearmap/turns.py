"""A lock that a fork leaves free: in the child there is no thread that could release it."""
import os
import threading

_forks = 0  # how often this process and those before it were forked
_renewing = threading.Lock()


def _forked() -> None:
    """Marks all locks as those of the parent."""
    global _forks, _renewing
    _forks, _renewing = _forks + 1, threading.Lock()


if hasattr(os, "register_at_fork"):
    os.register_at_fork(after_in_child=_forked)


class Turn:
    """What threads of a process take one after another, by `with turn.lock():`."""

    __slots__ = ("_lock", "_of")

    def __init__(self) -> None:
        self._lock, self._of = threading.Lock(), _forks

    def lock(self) -> threading.Lock:
        """The lock, in a forked child another one than its parent's."""
        if self._of != _forks:
            with _renewing:
                if self._of != _forks:  # else another thread was here first
                    self._lock = threading.Lock()
                    self._of = _forks
        return self._lock
