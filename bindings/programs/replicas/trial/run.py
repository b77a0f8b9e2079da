"""One trial: clients call while faults happen, and then all is compared."""
import pathlib
import tempfile
import threading
import time
from typing import List

from trial.checks import Record, answers_by_place, first, order_of_writes, placed, writes_in_the_log
from trial.clients import UNSURE, Call, Client, PatternClient, World
from trial.cluster import Cluster
from trial.faults import Faults
from trial.histories import without_order
from trial.planted import copy_with
from trial.processes import HERE
from trial.reads import Reads, wide_problems
from trial.recorder import Recorder
from trial.words import problems_of_words

KEEP = "100"
LEAST = 5000  # writes that a trial has to have
CLIENTS = 4


class Trial:
    """A trial under a seed, of the program or of a copy with a planted bug."""

    def __init__(self, seed: int, seconds: float, tool: str, planted: str = "") -> None:
        self.seed, self.seconds, self.tool, self.planted = seed, seconds, tool, planted
        self.problems: List[str] = []
        # What may be the machine's fault, and doesn't show that a planted bug was found.
        self.troubles: List[str] = []
        self.told: List[str] = []

    def run(self) -> List[str]:
        """Returns what is wrong: for a planted bug, in the log, the answers and the pairs alone."""
        with tempfile.TemporaryDirectory(prefix="replicas-") as room:
            folder = pathlib.Path(room)
            program = copy_with(self.planted, folder / "program") if self.planted else HERE
            cluster = Cluster(folder, program, self.tool, self.seed, "--keep", KEEP)
            try:
                cluster.start()
                self.work(cluster)
            finally:
                cluster.end()
        return self.problems if self.planted else self.problems + self.troubles

    def work(self, cluster: Cluster) -> None:
        recorder = Recorder(cluster.nodes)
        recorder.start()
        least = 0 if self.planted else int(LEAST * min(1, self.seconds / 120))
        world = World(cluster.replicas, self.seed, self.seconds, least)
        faults = Faults(cluster, world)
        clients = [*(Client(world, number) for number in range(1, CLIENTS)), PatternClient(world, CLIENTS)]
        threads: List[threading.Thread] = [faults, *clients]
        for thread in threads:
            thread.start()
        for thread in threads:
            thread.join()
        cluster.heal()
        self.troubles += first(faults.problems)
        self.told.append(f"{sum(faults.done.values())} faults, {cluster.forwarders.counts}")
        record = self.record_of(cluster, recorder)
        if record is not None:
            self.check_calls(record, world.calls)
            self.check_replicas(cluster, record)
            if not self.planted:
                self.problems += first(problems_of_words(cluster, recorder))

    def record_of(self, cluster: Cluster, recorder: Recorder) -> "Record | None":
        """The whole log, once it doesn't grow any more."""
        cluster.await_nodes(15)
        for replica in cluster.replicas:
            if not replica.await_answer(15):
                self.troubles.append(f"replica {replica.name} doesn't answer at the end: {replica.said()[-500:]}")
        # The last transactions that were brought late.
        time.sleep(4)
        until = time.monotonic() + 10
        while not recorder.read() and not recorder.problem and time.monotonic() < until:
            time.sleep(0.2)
        if recorder.problem:
            self.problems.append(recorder.problem)
            return None
        return Record(list(recorder.entries))

    def check_calls(self, record: Record, calls: List[Call]) -> None:
        writes = [call for call in calls if call.is_write]
        reads = [call for call in calls if not call.is_write and call.answer not in (None, "unavailable")]
        known = placed(record, writes)
        self.problems += first(writes_in_the_log(record, writes))
        self.problems += first(answers_by_place(record, writes))
        self.problems += first(order_of_writes(known))
        single = [call for call in reads if call.line.startswith(("peek ", "contains "))]
        self.problems += first(Reads(record, known).problems(single))
        wide = [call for call in reads if not call.is_local and not call.line.startswith(("peek ", "contains "))]
        self.problems += first(wide_problems(record, known, wide))
        keys, longest, bad = without_order(calls)
        self.problems += first(f"the history of key {key} isn't linearizable" for key in bad)
        answered = sum(call.answer not in UNSURE for call in writes)
        if not self.planted and answered < LEAST * min(1, self.seconds / 120):
            self.troubles.append(f"only {answered} writes were answered")
        self.told.append(
            f"{answered} writes answered, {len(writes) - answered} not known or refused, {len(reads)} reads; {record.number} entries; "
            f"{keys} histories of keys, the longest of {longest} calls"
        )

    def check_replicas(self, cluster: Cluster, record: Record) -> None:
        """Each replica has the pairs of the log, and again after it was killed and started."""
        self.compare(cluster, record, "")
        for replica in cluster.replicas:
            replica.kill()
            replica.start()
        self.compare(cluster, record, " after a restart")

    def compare(self, cluster: Cluster, record: Record, when: str) -> None:
        for replica in cluster.replicas:
            if not replica.await_answer(15):
                self.troubles.append(f"replica {replica.name} doesn't answer{when}: {replica.said()[-500:]}")
                continue
            pairs, status = replica.ask("iter", "status") or ["", ""]
            if not status.startswith(f"applied {record.number} "):
                self.problems.append(f"replica {replica.name} says {status!r}{when}, and the log has {record.number} entries")
            elif pairs != record.pairs:
                mine, log = set(pairs.split(" ")), set(record.pairs.split(" "))
                self.problems.append(f"replica {replica.name}{when} has {sorted(mine - log)[:5]} that the log hasn't, and lacks {sorted(log - mine)[:5]}")
