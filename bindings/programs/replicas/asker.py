"""Asks etcd where the log ends, for the reads that wait."""
import threading
import time
from typing import List, Optional

from etcd import Lost
from follower import Follower
from jobs import begin
from log import Log, Rewound, Trimmed
from state import State
from writer import PATIENCE

SOON = 0.05  # seconds within which a watch is expected to bring what the log has


class Question:
    """Reads that wait to be told where the log ended after they came."""

    __slots__ = ("last", "done")

    def __init__(self) -> None:
        self.last: Optional[int] = None
        self.done = threading.Event()


class Asker:
    """A thread that asks, once for all the reads that came before."""

    def __init__(self, log: Log, state: State, follower: Follower) -> None:
        self.log, self.state, self.follower = log, state, follower
        self.waiting: List[Question] = []
        self.came = threading.Condition()

    def start(self) -> None:
        begin("asker", self.run)

    def taken(self) -> List[Question]:
        """Waits for a question, and takes it with the others that wait."""
        with self.came:
            while not self.waiting:
                self.came.wait()
            return self.taken_now()

    def taken_now(self) -> List[Question]:
        found, self.waiting = self.waiting, []
        return found

    def run(self) -> None:
        while True:
            questions = self.taken()
            last = self.last()
            for question in questions:
                question.last = last
                question.done.set()

    def last(self) -> Optional[int]:
        """The number of the log's last entry now, or None if no quorum says."""
        until = time.monotonic() + PATIENCE
        while True:
            number = self.state.number
            try:
                return self.log.last(number, until)
            except Lost:
                return None
            except (Trimmed, Rewound) as error:
                self.follower.end_by(error, number)

    def reach_end(self) -> bool:
        """Waits until all that the log has at some moment from now on is applied, and returns whether that is known."""
        until = time.monotonic() + PATIENCE
        question = Question()
        with self.came:
            self.waiting.append(question)
            self.came.notify()
        question.done.wait(PATIENCE)
        if question.last is None:
            return False
        while not self.state.wait_for(question.last, SOON):
            # The watch is slow, or lost: the log itself has what is missing.
            try:
                self.follower.catch_up(until)
            except Lost:
                return False
        return True
