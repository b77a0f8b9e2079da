"""Clients that call the replicas, and note each call with its times."""
import random
import socket
import threading
import time
from typing import Callable, List, Optional, Sequence

from trial.processes import Replica

WRITES = ("insert", "upsert", "remove", "remove_if", "remove_range", "clear")
TOP = 2**64 - 1
NEVER = float("inf")
UNSURE = (None, "unknown", "unavailable")
LONGER = 480.0  # seconds more that a trial may take to get its writes
SECONDS = 15.0  # until a client doesn't wait any longer


class Call:
    """A line, when it was sent, and when it was answered with what."""

    __slots__ = ("line", "start", "end", "answer", "connection", "replica", "is_local")

    def __init__(self, line: str, connection: "Line", is_local: bool) -> None:
        self.line, self.connection, self.is_local = line, connection, is_local
        self.replica = connection.replica
        self.start, self.end = time.monotonic(), NEVER
        self.answer: Optional[str] = None

    @property
    def is_write(self) -> bool:
        return self.line.split(" ")[0] in WRITES

    def __repr__(self) -> str:
        return f"{self.line!r} at {self.replica.name} {self.start:.4f}..{self.end:.4f}: {self.answer!r}{' (local)' * self.is_local}"


class Line:
    """One connection to a replica."""

    def __init__(self, replica: Replica) -> None:
        self.replica = replica
        self.child = replica.child
        self.socket = socket.create_connection(("127.0.0.1", replica.port), SECONDS)
        self.socket.setsockopt(socket.IPPROTO_TCP, socket.TCP_NODELAY, 1)
        self.answers = self.socket.makefile("r")
        self.is_local = False

    def call(self, lines: Sequence[str]) -> List[Call]:
        """Sends lines in one piece, and notes their answers. A call whose answer is missing has none."""
        calls = [Call(line, self, self.is_local) for line in lines]
        try:
            self.socket.sendall("".join(f"{line}\n" for line in lines).encode())
            for call in calls:
                answer = self.answers.readline()
                if not answer.endswith("\n"):
                    break
                call.answer, call.end = answer[:-1], time.monotonic()
        except OSError:
            pass
        return calls

    def close(self) -> None:
        self.answers.close()
        self.socket.close()


class World:
    """What the clients share: the replicas, the calls so far, and when it ends."""

    def __init__(self, replicas: List[Replica], seed: int, seconds: float, least: int) -> None:
        self.replicas, self.seed, self.least, self.writes = replicas, seed, least, 0
        self.begin = time.monotonic()
        self.until = self.begin + seconds
        self.lock = threading.Lock()
        self.calls: List[Call] = []

    @property
    def is_over(self) -> bool:
        """Whether the time is over and there were writes enough. A slow machine gets more time for them."""
        late = time.monotonic() - self.until
        return late > LONGER or (late > 0 and self.writes >= self.least)

    def note(self, calls: Sequence[Call]) -> None:
        with self.lock:
            self.calls += calls
            self.writes += sum(call.is_write and call.answer not in UNSURE for call in calls)

    def share(self) -> float:
        """Which part of the time is over."""
        return (time.monotonic() - self.begin) / (self.until - self.begin)


class Old:
    """A pair that was stored a while ago, and isn't touched before it is taken."""

    def __init__(self, key: int, value: int) -> None:
        self.key, self.value, self.since = key, value, time.monotonic()


class Client(threading.Thread):
    """A client, which sends pieces of lines to one replica or another."""

    def __init__(self, world: World, number: int) -> None:
        super().__init__(daemon=True)
        self.world, self.number = world, number
        self.chance = random.Random(f"{world.seed} {number}")
        self.values = number * 10**12
        self.line: Optional[Line] = None
        self.old: List[Old] = []
        self.pause = 0.06
        self.kinds: List[Callable[[], List[str]]] = [self.hot] * 8 + [self.pattern] * 4 + [self.plant] + [self.ranged] * 3 + [self.look] * 4

    def run(self) -> None:
        while not self.world.is_over:
            lines = self.chance.choice(self.kinds)()
            if lines:
                self.send(lines)
            time.sleep(self.chance.uniform(0.005, self.pause))

    def send(self, lines: List[str]) -> None:
        if self.line is None or self.chance.random() < 0.1:
            self.connect()
        if self.line is None:
            return
        if self.chance.random() < 0.05:
            self.turn_mode(self.line)
        calls = self.line.call(lines)
        self.world.note(calls)
        if calls[-1].answer is None:
            self.close()

    def turn_mode(self, line: Line) -> None:
        """Asks for local reads, or for linear ones again."""
        is_local = self.chance.random() < 0.3
        if line.call(["local" if is_local else "linear"])[0].answer == "ok":
            line.is_local = is_local

    def connect(self) -> None:
        self.close()
        try:
            self.line = Line(self.chance.choice(self.world.replicas))
        except OSError:
            time.sleep(0.05)

    def close(self) -> None:
        if self.line is not None:
            self.line.close()
            self.line = None

    def value(self) -> int:
        """A value that no other write has."""
        self.values += 1
        return self.values

    def key(self) -> int:
        """A key that all clients call now. Others come every few seconds, so that no key's history gets long."""
        if self.chance.random() < 0.04:
            return self.chance.choice((0, TOP, TOP - 1, 2**63))
        return int((time.monotonic() - self.world.begin) / 4) * 1000 + self.chance.randrange(16)

    def hot(self) -> List[str]:
        return [self.hot_line() for _ in range(self.chance.randrange(1, 7))]

    def hot_line(self) -> str:
        key, word = self.key(), self.chance.choice(("insert", "upsert", "upsert", "remove", "peek", "peek", "peek", "contains"))
        return f"{word} {key} {self.value()}" if word in ("insert", "upsert") else f"{word} {key}"

    def look(self) -> List[str]:
        """One read alone."""
        return [f"peek {self.key()}"]

    def plant(self) -> List[str]:
        """Pairs that are there for a while before a pattern takes them."""
        made = [Old(10**9 + self.value(), self.value()) for _ in range(8)]
        self.old += made
        return [f"upsert {it.key} {it.value}" for it in made]

    def pattern(self) -> List[str]:
        """Lines that leave other pairs if they are applied twice: `insert` stores the second time."""
        if not self.old or time.monotonic() - self.old[0].since < 2:
            return []
        it = self.old.pop(0)
        return [f"insert {it.key} {self.value()}", f"remove_if {it.key} {it.value}"]

    def ranged(self) -> List[str]:
        """Lines over many keys."""
        low = 2 * 10**9 + self.chance.randrange(4000)
        puts = [f"upsert {low + self.chance.randrange(200)} {self.value()}" for _ in range(self.chance.randrange(1, 5))]
        word = self.chance.choice(("remove_range", "range", "range", "locate", "len"))
        if word == "len":
            return [*puts, "len"]
        if word == "locate":
            return [*puts, f"locate {low + self.chance.randrange(200)}"]
        if self.chance.random() < 0.1 and self.world.share() < 0.3:
            return ["clear", *puts]
        ends = sorted(self.chance.randrange(200) for _ in "ab")
        return [*puts, f"{word} {self.chance.choice('[(')}{low + ends[0]} {self.chance.choice('[(')}{low + ends[1]}"]


class PatternClient(Client):
    """A client of patterns, so that many of the entries at which a replica is killed show it if they are applied twice."""

    def __init__(self, world: World, number: int) -> None:
        super().__init__(world, number)
        self.pause = 0.02
        self.kinds = [self.pattern] * 7 + [self.plant]
