"""A replica's state: the log's entries applied in their order, and the writes that wait for their answers."""
import threading
import time
from typing import Dict, List, Optional, Sequence

from ending import REFUSED, end
from grammar import Request, request_of
from keeper import Applied, Keeper
from log import Entry
from pairs import Pairs


class Wish:
    """A write that waits for its answer."""

    __slots__ = ("request", "answer", "done", "is_sent")

    def __init__(self, request: Request) -> None:
        self.request, self.is_sent = request, False
        self.answer: Optional[str] = None
        self.done = threading.Event()

    def settle(self, answer: str) -> None:
        self.answer = answer
        self.done.set()


class State:
    """The pairs after the entries so far. The lock guards all of it."""

    def __init__(self, pairs: Pairs, keeper: Keeper) -> None:
        self.pairs, self.keeper = pairs, keeper
        self.number, self.revision = keeper.stamp.number, keeper.stamp.revision
        self.ours: Dict[str, Sequence[Wish]] = {}
        self.lock = threading.Lock()
        self.moved = threading.Condition(self.lock)

    def expect(self, ident: str, group: Sequence[Wish]) -> None:
        """Names the writes that are to be answered once the entry of this name is applied."""
        with self.lock:
            self.ours[ident] = group

    def number_for(self, ident: str) -> Optional[int]:
        """The number at which the entry of this name is to be appended, or None if it is applied.

        Both are read under the lock: a number that is read after the entry was applied would append it again.
        """
        with self.lock:
            return self.number + 1 if ident in self.ours else None

    def feed(self, entries: Sequence[Entry]) -> None:
        """Applies the entries that come next. Those that were applied before, or leave a gap, are passed over."""
        with self.moved:
            for entry in entries:
                if entry.number == self.number + 1:
                    self.apply(entry)
            self.moved.notify_all()

    def apply(self, entry: Entry) -> None:
        """Applies an entry, and answers its writes if they are ours. The lock is held."""
        try:
            requests = [request_of(line.encode()) for line in entry.lines]
            written = [self.pairs.write(request) for request in requests if request is not None]
            changes = [change for _, change in written if change is not None]
            self.keeper.take(Applied(entry.number, entry.revision, changes))
        except MemoryError:
            # Its pairs would differ from those of the others from here on.
            end(REFUSED, "an allocation failed while an entry was applied: start it again with more memory")
        self.number, self.revision = entry.number, entry.revision
        for wish, (answer, _) in zip(self.ours.pop(entry.ident, ()), written):
            wish.settle(answer)

    def wait_for(self, number: int, seconds: float) -> bool:
        """Waits until an entry is applied, for so long at most, and returns whether it is."""
        until = time.monotonic() + seconds
        with self.moved:
            while self.number < number:
                left = until - time.monotonic()
                if left <= 0:
                    return False
                self.moved.wait(left)
            return True

    def read(self, request: Request) -> str:
        with self.lock:
            return self.pairs.read(request)
