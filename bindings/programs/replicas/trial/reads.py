"""Whether each read was answered as the model answers at a place of the log where the read may be.

This finds more than the histories of single keys do: it sees reads over many keys, and local ones.
"""
import bisect
import heapq
from collections import defaultdict
from typing import Dict, Iterable, List, Optional, Sequence, Tuple

from trial.checks import Record
from trial.clients import Call
from trial.model import Model

Known = Sequence[Tuple[int, Call]]


def running_most(numbers: Iterable[int]) -> List[int]:
    """The most of each number and those before it."""
    found: List[int] = []
    for number in numbers:
        found.append(max(number, found[-1]) if found else number)
    return found


class Writes:
    """How many lines of the log there were at a time, as writes show whose place is known."""

    def __init__(self, record: Record, known: Known) -> None:
        self.count = len(record.lines)
        ends = sorted((call.end, place + 1) for place, call in known if call.answer not in (None, "unknown"))
        self.ends, self.answered = [end for end, _ in ends], running_most(count for _, count in ends)
        starts = sorted((call.start, place) for place, call in known)
        self.starts = [start for start, _ in starts]
        self.later = [-it for it in running_most(-place for _, place in reversed(starts))][::-1]

    def least(self, start: float) -> int:
        """Lines that were answered before this time were there."""
        at = bisect.bisect_left(self.ends, start)
        return self.answered[at - 1] if at else 0

    def most(self, end: float) -> int:
        """Lines that were sent after this time weren't."""
        at = bisect.bisect_right(self.starts, end)
        return self.later[at] if at < len(self.starts) else self.count


class Floor:
    """The place of the latest of the reads that were answered before a time. Times are asked for in ascending order."""

    def __init__(self) -> None:
        self.ends: List[Tuple[float, int]] = []
        self.place = 0

    def at(self, start: float) -> int:
        while self.ends and self.ends[0][0] < start:
            self.place = max(self.place, heapq.heappop(self.ends)[1])
        return self.place

    def add(self, end: float, place: int) -> None:
        heapq.heappush(self.ends, (end, place))


class Reads:
    """Finds the first place for each read of one key, in the order in which they were sent.

    A linear read sees the writes that were answered before it was sent, and what each earlier linear read saw. A local one sees
    what its replica answered before.
    """

    def __init__(self, record: Record, known: Known) -> None:
        self.record, self.all = record, Writes(record, known)
        children = {call.connection.child for _, call in known}
        self.own = {child: Writes(record, [it for it in known if it[1].connection.child is child]) for child in children}
        self.seen = Floor()
        self.seen_there: "Dict[object, Floor]" = defaultdict(Floor)

    def problems(self, reads: Iterable[Call]) -> Iterable[str]:
        for call in sorted(reads, key=lambda it: it.start):
            low, high = self.low(call), self.all.most(call.end)
            place = self.place(call, low)
            if place is None or place > high:
                yield f"{call} isn't the model's answer after {low} to {high} lines of the log"
                continue
            self.seen_there[call.connection.child].add(call.end, place)
            if not call.is_local:
                self.seen.add(call.end, place)

    def low(self, call: Call) -> int:
        child = call.connection.child
        low = self.seen_there[child].at(call.start)
        if child in self.own:
            low = max(low, self.own[child].least(call.start))
        return low if call.is_local else max(low, self.seen.at(call.start), self.all.least(call.start))

    def place(self, call: Call, low: int) -> Optional[int]:
        """The first place from this one on where the model answers so."""
        word, key = call.line.split(" ")
        values = self.record.values[int(key)]
        at = bisect.bisect_right(values, low, key=lambda it: it[0]) - 1
        for place, value in values[at:]:
            answer = str("none" if value is None else value) if word == "peek" else str(value is not None).lower()
            if answer == call.answer:
                return max(place, low)
        return None


def wide_problems(record: Record, known: Known, reads: Iterable[Call]) -> Iterable[str]:
    """Linear reads over many keys, each by itself, by a replay that tries them at each place where they may be."""
    writes = Writes(record, known)
    begin: Dict[int, List[Tuple[Call, int]]] = defaultdict(list)
    for call in reads:
        begin[writes.least(call.start)].append((call, writes.most(call.end)))
    model = Model()
    left: List[Tuple[Call, int]] = []
    for place in range(len(record.lines) + 1):
        left += begin.get(place, [])
        left = [(call, high) for call, high in left if model.read(call.line) != call.answer]
        yield from (f"{call} isn't the model's answer up to line {high} of the log" for call, high in left if place >= high)
        left = [(call, high) for call, high in left if place < high]
        if place < len(record.lines):
            model.write(record.lines[place])
