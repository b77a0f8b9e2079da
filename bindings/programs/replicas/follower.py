"""Follows the log: reads what is missing by quorum, and then watches from the revision at which nothing was."""
from typing import Optional

from ending import BEHIND, WRONG, end
from etcd import Lost
from jobs import begin
from log import Log, Rewound, Trimmed
from state import State


class Follower:
    """A thread that applies the entries as they come."""

    def __init__(self, log: Log, state: State) -> None:
        self.log, self.state = log, state

    def start(self) -> None:
        begin("follower", self.run)

    def catch_up(self, until: Optional[float] = None) -> int:
        """Applies what is missing, and returns etcd's revision at which nothing was. Raises Lost if that isn't known in time."""
        while True:
            number = self.state.number
            try:
                entries, revision = self.log.page(number, until)
            except (Trimmed, Rewound) as error:
                self.end_by(error, number)
                continue
            if not entries:
                return revision
            self.state.feed(entries)

    def end_by(self, error: Exception, number: int) -> None:
        """Ends the process if its last entry isn't in the log. The entry that was asked for may be an older one by now."""
        if self.state.number != number:
            return
        if isinstance(error, Rewound):
            end(WRONG, f"etcd's log ends before entry {number}, this file's last: it was set up from an older copy")
        end(
            BEHIND,
            f"the log begins after entry {number}, this file's last: stop another replica, start this one with a copy of its folder,"
            " and forget the names that are gone",
        )

    def run(self) -> None:
        while True:
            try:
                revision = self.catch_up()
                self.watch(revision + 1)
            except Lost:
                pass
            self.log.etcd.turn()

    def watch(self, revision: int) -> None:
        """Applies what a watch gives, until it may have missed an entry."""
        for entries in self.log.watch(revision):
            self.state.feed(entries)
            if entries and entries[-1].number > self.state.number:
                return
