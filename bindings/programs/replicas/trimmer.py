"""Trims the log: says how far this replica's file is, and deletes the entries that every replica's file has."""
import time

from etcd import Full, Lost
from jobs import begin
from keeper import Keeper
from log import Log

EACH = 1.0  # seconds between two looks
REVISIONS = 1000  # revisions of etcd after which it is compacted even if no entry goes


class Trimmer:
    """A thread that looks each second."""

    def __init__(self, log: Log, keeper: Keeper, name: str, keep: int) -> None:
        self.log, self.keeper, self.name, self.keep = log, keeper, name, keep
        self.compacted = 0

    def start(self) -> None:
        begin("trimmer", self.run)

    def run(self) -> None:
        while True:
            time.sleep(EACH)
            try:
                self.look()
            except (Lost, Full):
                pass

    def look(self) -> None:
        """Trims once as many entries can go as stay, and then registers what is on the disk.

        Trimming comes first, since an etcd that has no space left takes only what deletes.
        """
        numbers, revision = self.log.registered(time.monotonic() + EACH)
        least = min(numbers.values(), default=0) - self.keep
        first = self.log.first(time.monotonic() + EACH)
        if first is not None and least - first >= max(1, self.keep) and self.log.trim(least, revision):
            self.compacted = 0
        if revision - self.compacted >= REVISIONS:
            self.log.compact(revision)
            self.compacted = revision
        number = self.keeper.on_disk
        if numbers.get(self.name) != number:
            self.log.register(self.name, number)
