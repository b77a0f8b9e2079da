"""Appends writes to the log: those that wait, as one entry, at most once."""
import os
import threading
import time
from collections import deque
from typing import Deque, List

from etcd import Full, Lost
from grammar import Request
from jobs import begin
from log import Log
from state import State, Wish

PATIENCE = 10.0  # seconds until a line is answered without etcd


class Writer:
    """A thread that appends, one entry after another."""

    def __init__(self, log: Log, state: State, group: int) -> None:
        self.log, self.state, self.group = log, state, group
        self.waiting: Deque[Wish] = deque()
        self.came = threading.Condition()
        # The name of a replica comes again after a restart, and these names don't.
        self.start_name, self.turns = os.urandom(8).hex(), 0

    def start(self) -> None:
        begin("writer", self.run)

    def wish(self, request: Request) -> Wish:
        """Takes a write, which is answered later."""
        wish = Wish(request)
        with self.came:
            self.waiting.append(wish)
            self.came.notify()
        return wish

    def answer(self, wish: Wish) -> str:
        """Waits for an answer. `unavailable`: nothing was done. `unknown`: it may be done, once."""
        if not wish.done.wait(PATIENCE):
            with self.came:
                if not wish.is_sent:
                    self.waiting.remove(wish)
                    return "unavailable"
        return wish.answer or "unknown"

    def taken(self) -> List[Wish]:
        """Waits for a write, and takes it with those that wait behind it."""
        with self.came:
            while not self.waiting:
                self.came.wait()
            group = [self.waiting.popleft() for _ in range(min(self.group, len(self.waiting)))]
            for wish in group:
                wish.is_sent = True
            return group

    def fresh(self) -> str:
        """A name for an entry that no other one has."""
        self.turns += 1
        return f"{self.start_name}-{self.turns}"

    def run(self) -> None:
        while True:
            group = self.taken()
            ident = self.fresh()
            self.append(ident, group)

    def append(self, ident: str, group: List[Wish]) -> None:
        """Appends a group, again and again until the log has it, always behind what is applied here.

        A call without an answer may be done yet, and is repeated at the same number. So either it is found there by its name, or
        another entry is there, and then it never will be.
        """
        self.state.expect(ident, group)
        lines = [wish.request.line for wish in group]
        while (number := self.state.number_for(ident)) is not None:
            try:
                _, entries = self.log.append(number, ident, lines)
                self.state.feed(entries)
            except Lost:
                pass
            except Full:
                time.sleep(0.3)
