"""How fast the replicas are, and how long they stand still when a process is killed."""
import pathlib
import selectors
import socket
import tempfile
import time
from typing import Dict, Iterator, List, NamedTuple, Tuple

from trial.clients import Line
from trial.cluster import Cluster
from trial.processes import HERE, Replica

SECONDS = 6.0  # of each row
FASTER = 10  # so many times what grouping has to give
LONGEST = 5.0  # seconds that a write may wait after a leader was killed
AGAIN = 2.0  # seconds within which a replica that was killed and started has to answer


class Row(NamedTuple):
    """Writes a second, and their times in milliseconds."""

    rate: float
    median: float
    slow: float
    group: float

    def __str__(self) -> str:
        return f"{self.rate:,.0f} writes a second, median {self.median:.1f} ms, 99 of 100 within {self.slow:.1f} ms, {self.group:.1f} lines an entry"


def number_of(replica: Replica) -> int:
    return int((replica.ask("status") or ["applied 0"])[0].split(" ")[1])


def measured(replicas: List[Replica], clients: int, seconds: float = SECONDS) -> Row:
    """Writes of so many clients, each with a line in flight, in turns at the replicas."""
    selector, times, at = selectors.DefaultSelector(), [], 0  # type: selectors.DefaultSelector, List[float], int
    sent: Dict[socket.socket, float] = {}
    first = number_of(replicas[0])

    def send(connection: socket.socket) -> None:
        nonlocal at
        at += 1
        sent[connection] = time.monotonic()
        connection.sendall(f"upsert {at} {at}\n".encode())

    begin = time.monotonic()
    for client in range(clients):
        connection = socket.create_connection(("127.0.0.1", replicas[client % len(replicas)].port))
        connection.setsockopt(socket.IPPROTO_TCP, socket.TCP_NODELAY, 1)
        selector.register(connection, selectors.EVENT_READ)
        send(connection)
    while time.monotonic() < begin + seconds:
        for key, _ in selector.select(1):
            connection = key.fileobj  # type: ignore[assignment]
            connection.recv(100)
            times.append(time.monotonic() - sent[connection])
            send(connection)
    for connection in sent:
        connection.close()
    times.sort()
    entries = max(number_of(replicas[0]) - first, 1)
    return Row(len(times) / seconds, 1000 * times[len(times) // 2], 1000 * times[len(times) * 99 // 100], len(times) / entries)


def longest_write(cluster: Cluster) -> float:
    """The longest of the writes of one client while the leader is killed and started again."""
    line, longest, began = Line(cluster.replicas[0]), 0.0, time.monotonic()
    leader, is_started = cluster.leader(), False
    assert leader is not None
    while time.monotonic() < began + 8:
        now = time.monotonic() - began
        if now > 1 and leader.is_running and not is_started:
            leader.kill()
        if now > 4 and not is_started:
            leader.start()
            is_started = True
        (call,) = line.call([f"upsert 1 {int(1000 * now)}"])
        if call.answer != "ok":
            return float("inf")
        longest = max(longest, call.end - call.start)
    line.close()
    cluster.await_nodes(20)
    return longest


def answers_again(replica: Replica) -> float:
    """The time from a kill to the first linear answer, with the start right behind the kill."""
    replica.kill()
    began = time.monotonic()
    replica.start()
    return time.monotonic() - began if replica.await_answer(20) else float("inf")


class Figures:
    """What was measured, over a cluster of its own."""

    def __init__(self) -> None:
        # Behind each row how many clients there were, and at what.
        self.rows: List[Tuple[str, Row]] = []
        self.gaps: List[float] = []
        self.again: List[float] = []

    def run(self, tool: str) -> Iterator[Tuple[str, bool]]:
        """Measures, and gives each figure with whether it is as it should be."""
        with tempfile.TemporaryDirectory(prefix="replicas-") as room:
            cluster = Cluster(pathlib.Path(room), HERE, tool, 1)
            single = cluster.replica("single", "--group", "1")
            try:
                cluster.start()
                yield from self.rates(cluster, single)
                self.gaps = [longest_write(cluster) for _ in range(5)]
                yield f"leader killed {len(self.gaps)} times: the longest write {self.spread(self.gaps)} s", max(self.gaps) <= LONGEST
                self.again = [answers_again(cluster.replicas[at % 3]) for at in range(6)]
                yield f"replica killed {len(self.again)} times: answers again after {self.spread(self.again)} s", max(self.again) <= AGAIN
            finally:
                single.kill()
                cluster.end()

    def rates(self, cluster: Cluster, single: Replica) -> Iterator[Tuple[str, bool]]:
        one = cluster.replicas[:1]
        for clients, replicas, where in ((1, one, "one replica"), (4, one, "one replica"), (4, cluster.replicas, "three replicas"), (16, one, "one replica"), (64, one, "one replica")):
            yield self.row(f"{clients}, at {where}", measured(replicas, clients)), True
        single.start()
        single.await_answer(20)
        line = self.row("64, at one replica, `--group 1`", measured([single], 64))
        single.kill()
        yield f"{line}; {self.faster():.1f} times as many grouped", self.faster() >= FASTER

    def row(self, who: str, row: Row) -> str:
        self.rows.append((who, row))
        return f"clients: {who}: {row}"

    def faster(self) -> float:
        """How many times the writes of one line an entry grouping gives."""
        return self.rows[-2][1].rate / self.rows[-1][1].rate

    @staticmethod
    def spread(seconds: List[float]) -> str:
        return ", ".join(f"{it:.2f}" for it in sorted(seconds))
