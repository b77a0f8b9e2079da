"""The pairs in memory, in an index: what a request answers, and what a write changed."""
from typing import Iterable, NamedTuple, Optional, Tuple, Union

from grammar import Bound, Request
from tree_index import TreeIndex

# Keys of the package's index have a sign, and those of the grammar have none.
HALF = 2**63


class Put(NamedTuple):
    """A pair was stored."""

    key: int
    value: int


class Removed(NamedTuple):
    """A pair was removed."""

    key: int


class Cut(NamedTuple):
    """The pairs within two bounds were removed."""

    low: Bound
    high: Bound


class Emptied(NamedTuple):
    """All pairs were removed."""


Change = Union[Put, Removed, Cut, Emptied]
Written = Tuple[str, Optional[Change]]
Pair = Tuple[int, int]


def shown(pairs: Iterable[Pair]) -> str:
    return " ".join(f"{key + HALF}={value}" for key, value in pairs)


def shifted(bound: Bound) -> Optional[int]:
    return None if bound.number is None else bound.number - HALF


class Pairs:
    """Pairs of two numbers, each from 0 to 2^64 - 1."""

    def __init__(self) -> None:
        self.index: TreeIndex[int, int] = TreeIndex()

    def fill(self, pairs: Iterable[Pair]) -> None:
        """Stores pairs that a file had."""
        self.index.update((key - HALF, value) for key, value in pairs)

    def write(self, request: Request) -> Written:
        """Applies a write, and returns its answer and what it changed, if it changed anything."""
        if request.word == "clear":
            self.index.clear()
            return "ok", Emptied()
        if request.word == "remove_range":
            return self._cut(*request.bounds())
        key = request.number(0)
        if request.word in ("remove", "remove_if"):
            return self._remove(request, key)
        if request.word == "insert" and key - HALF in self.index:
            return "duplicate", None
        self.index[key - HALF] = request.number(1)
        return "ok", Put(key, request.number(1))

    def _remove(self, request: Request, key: int) -> Written:
        found = self.index.get(key - HALF)
        if found is None or (request.word == "remove_if" and found != request.number(1)):
            return "false", None
        del self.index[key - HALF]
        return "true", Removed(key)

    def _cut(self, low: Bound, high: Bound) -> Written:
        gone = self.index.pop_range(shifted(low), shifted(high), (low.is_included, high.is_included))
        return "ok", Cut(low, high) if gone else None

    def read(self, request: Request) -> str:
        """The answer to a read."""
        if request.word == "peek":
            value = self.index.get(request.number(0) - HALF)
            return "none" if value is None else str(value)
        if request.word == "contains":
            return "true" if request.number(0) - HALF in self.index else "false"
        if request.word == "range":
            low, high = request.bounds()
            return shown(self.index.irange_items(shifted(low), shifted(high), (low.is_included, high.is_included)))
        if request.word == "locate":
            return self._located(request.number(0) - HALF)
        if request.word in ("iter", "back"):
            return shown(self.index.irange_items(reverse=request.word == "back"))
        # Each write makes an object of Python's, so none is sure to allocate nothing.
        return {"len": str(len(self.index)), "depth": str(self.index.depth), "spare": "0"}[request.word]

    def _located(self, key: int) -> str:
        below, above = self.index.at_or_below(key), self.index.at_or_above(key)
        if below is not None and below[0] == key:
            return "exact " + shown([below])
        if below is not None and above is not None:
            return "between " + shown([below, above])
        if below is not None:
            return "smaller " + shown([below])
        return "larger " + shown([above]) if above is not None else "empty"
