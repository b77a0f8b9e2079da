"""Where a file keeps the number of its last entry, though every key may be a user's.

A store has keys and values of 64 bits alone. So five neighbouring keys that the user doesn't have, the area, keep the mark of a
replica's file, the log's name, the number of the last entry, etcd's revision of it, and a value. The key 2^64 - 1 has the place
of the area as its value, and the user's own value at that key, if there is one, is the fifth of the area. If a user stores a pair
within the area, the area moves in the same commit.
"""
import bisect
import random
from typing import Callable, List, NamedTuple, Optional, Sequence, Tuple

from grammar import TOP, Bound
from pairs import Change, Cut, Emptied, Pair, Put, Removed

POINTER = TOP
CELLS = 5
MARK = int.from_bytes(b"replicas", "big")


class NotOurs(Exception):
    """The file is a store, and no replica's."""


class Stamp(NamedTuple):
    """Which log a file follows, and how far."""

    log: int
    number: int
    revision: int


def reaches(low: Bound, high: Bound, key: int) -> bool:
    """Whether a key is within bounds."""
    if low.number is not None and (key < low.number or (key == low.number and not low.is_included)):
        return False
    return high.number is None or key < high.number or (key == high.number and high.is_included)


def line_of(change: Change) -> Optional[str]:
    """The store's line for a change, or None for one of the pointer's key alone."""
    if isinstance(change, Emptied):
        return "clear"
    if isinstance(change, Cut):
        low, high = (spelled(bound) for bound in change)
        return f"remove_range {low} {high}"
    if change.key == POINTER:
        return None
    return f"upsert {change.key} {change.value}" if isinstance(change, Put) else f"remove {change.key}"


def spelled(bound: Bound) -> str:
    if bound.number is None:
        return "-"
    return f"{'[' if bound.is_included else '('}{bound.number}"


class Area:
    """The place of the area, and the user's value at the pointer's key."""

    def __init__(self, place: int, last: Optional[int]) -> None:
        self.place, self.last = place, last

    def has(self, key: int) -> bool:
        return self.place <= key < self.place + CELLS

    def note(self, change: Change) -> None:
        """Follows the user's value at the pointer's key."""
        if isinstance(change, Emptied) or (isinstance(change, Cut) and reaches(change.low, change.high, POINTER)):
            self.last = None
        elif isinstance(change, (Put, Removed)) and change.key == POINTER:
            self.last = change.value if isinstance(change, Put) else None

    def lines(self, stamp: Stamp) -> List[str]:
        """The lines that write the area whole."""
        cells = [MARK, stamp.log, stamp.number, stamp.revision]
        lines = [f"upsert {POINTER} {self.place}", *(f"upsert {self.place + at} {cell}" for at, cell in enumerate(cells))]
        fifth = self.place + len(cells)
        return [*lines, f"remove {fifth}" if self.last is None else f"upsert {fifth} {self.last}"]

    def batch(self, changes: Sequence[Change], stamp: Stamp, is_free: Callable[[int], bool]) -> List[str]:
        """The lines of one commit: changes of the user's pairs, and the area as it is after them."""
        lines = []
        keys = {change.key for change in changes if isinstance(change, Put)}
        if any(map(self.has, keys)):
            lines.append(f"remove_range [{self.place} [{self.place + CELLS - 1}")
            self.place = free_place(lambda place: not any(place <= key < place + CELLS for key in keys) and is_free(place))
        for change in changes:
            line = line_of(change)
            self.note(change)
            if line is not None:
                lines.append(line)
        return lines + self.lines(stamp)


def free_place(is_free: Callable[[int], bool]) -> int:
    """A place at random where the user has no key."""
    while True:
        place = random.randrange(POINTER - CELLS)
        if is_free(place):
            return place


def parted(pairs: List[Pair]) -> Tuple[Area, Stamp, List[Pair]]:
    """Takes a store's pairs apart: the area, what it says, and the user's pairs. Raises NotOurs if there is no area."""
    if not pairs or pairs[-1][0] != POINTER:
        raise NotOurs
    place = pairs[-1][1]
    first = bisect.bisect_left(pairs, (place, 0))
    cells = dict(pairs[first : first + CELLS])
    found = [cells.get(place + at) for at in range(CELLS)]
    mark, log, number, revision = found[:4]
    if mark != MARK or log is None or number is None or revision is None:
        raise NotOurs
    last = found[4]
    behind = first + (4 if last is None else CELLS)
    users = pairs[:first] + pairs[behind:-1] + ([] if last is None else [(POINTER, last)])
    return Area(place, last), Stamp(log, number, revision), users
