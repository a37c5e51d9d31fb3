"""A caller's arrays for the results of scipy's calls: what they must be, and what is returned."""
from __future__ import annotations

from typing import Any, NamedTuple, Tuple

from .grids import Memory
from .library import numpy

NAMES = ("distances", "indices")


class Outputs(NamedTuple):
    """The arrays that a caller gives, each None if there is none, and the dtype of distances."""

    distances: Any
    indices: Any
    dtype: Any

    def are_given(self) -> bool:
        """Whether there is one."""
        return self.distances is not None or self.indices is not None

    def check_asked(self, distances: bool, indices: bool) -> None:
        """Whether each is an array whose result is asked for. RuntimeError, as of scipy, if not."""
        for name, array, asked in zip(NAMES, self[:2], (distances, indices)):
            if array is not None and not isinstance(array, numpy().ndarray):
                raise TypeError(f"{name} is a {type(array).__name__}, where an array is wanted")
            if array is not None and not asked:
                raise RuntimeError(f"return_{name} must be True if {name} is supplied")

    def apart(self, memory: Memory) -> Memory:
        """The same map in memory that neither array shares."""
        np = numpy()
        given = [array for array in self[:2] if array is not None]
        if len(given) == 2 and np.may_share_memory(*given, max_work=1000):
            raise RuntimeError("distances and indices share memory")
        if not any(np.may_share_memory(memory.cells, array) for array in given):
            return memory
        from .maps import packed  # which has calls of this module

        return packed(memory)

    def arrays(self, distances: bool, indices: bool, shape: Tuple[int, int]) -> Tuple[Any, Any]:
        """The arrays to write distances and indices to, each None if it isn't asked for."""
        np = numpy()
        wanted = (shape, self.dtype), ((2, *shape), np.dtype(np.int32))
        return (
            _taken("distances", self.distances, *wanted[0]) if distances else None,
            _taken("indices", self.indices, *wanted[1]) if indices else None,
        )

    def left(self, distances: Any, indices: Any) -> Any:
        """What a call returns: of its results those for which no array was given."""
        pairs = (self.distances, distances), (self.indices, indices)
        made = [found for given, found in pairs if given is None and found is not None]
        return tuple(made) if len(made) == 2 else made[0] if made else None


def _taken(name: str, given: Any, shape: Tuple[int, ...], dtype: Any) -> Any:
    """A caller's array for a result, or a new one. RuntimeError if it can't hold the result."""
    np = numpy()
    if given is None:
        return np.empty(shape, dtype)
    if given.shape != shape:
        raise RuntimeError(f"{name} has the shape {given.shape}, where {shape} is wanted")
    if given.dtype != dtype:
        raise RuntimeError(f"{name} is an array of {given.dtype}, where {dtype} is wanted")
    if not given.flags.writeable:
        raise RuntimeError(f"{name} is an array that can't be written")
    return np.asarray(given)
