"""What goes wrong while the clients call: kills, stops, a node that is cut off, answers that are lost."""
import random
import threading
import time
from collections import Counter
from typing import Callable, Dict, List

from trial.clients import World
from trial.cluster import Cluster
from trial.processes import Node, Process, Replica
from trial.races import Races


class Faults(threading.Thread):
    """A thread that does one fault after another, as the seed draws them."""

    def __init__(self, cluster: Cluster, world: World) -> None:
        super().__init__(daemon=True)
        self.cluster, self.world = cluster, world
        self.chance = random.Random(f"{world.seed} faults")
        self.races = Races(world)
        self.done: "Counter[str]" = Counter()
        self.problems: List[str] = []
        # Behind each kind how often it is drawn.
        self.kinds: Dict[Callable[[], None], int] = {
            self.kill_replica: 4, self.kill_often: 2, self.stop_at_a_point: 4, self.kill_store: 1, self.stop_replica: 2,
            self.kill_node: 1, self.kill_leader: 1, self.stop_node: 1, self.stop_leader: 1, self.kill_two_nodes: 1, self.kill_all: 1,
            self.cut_a_node: 2, self.drop_answers: 3, self.come_late: 2, self.hold_answers: 4, self.silence_watches: 1,
        }  # fmt: skip

    def run(self) -> None:
        # Each kind is done, in an order at random, and then again.
        left: List[Callable[[], None]] = []
        while not self.world.is_over:
            if not left:
                left = [kind for kind, count in self.kinds.items() for _ in range(count)]
                self.chance.shuffle(left)
            kind = left.pop()
            self.done[kind.__name__] += 1
            kind()
            self.cluster.heal()
            if not self.cluster.await_nodes(15):
                self.problems.append(f"after {kind.__name__} etcd's nodes didn't agree within 15 seconds")
            self.watch_replicas(kind.__name__)
            time.sleep(self.chance.uniform(0.1, 0.5))

    def watch_replicas(self, name: str) -> None:
        """Each replica answers again some seconds after the last fault."""
        for replica in self.cluster.replicas:
            if not replica.await_answer(15):
                self.problems.append(f"after {name} replica {replica.name} doesn't answer, status {replica.status()}: {replica.said()[-500:]}")

    def replica(self) -> Replica:
        return self.chance.choice(self.cluster.replicas)

    def leader(self) -> Node:
        return self.cluster.leader() or self.cluster.nodes[0]

    def pause(self, low: float, high: float) -> None:
        time.sleep(self.chance.uniform(low, high))

    def kill_replica(self) -> None:
        self.replica().kill()
        self.pause(0, 1)

    def kill_often(self) -> None:
        """One replica is killed again and again while the others write."""
        replica = self.replica()
        for _ in range(5):
            replica.kill()
            replica.start()
            replica.await_answer(5)
            self.pause(0.05, 0.4)

    def stop_at_a_point(self) -> None:
        """A replica ends right after one of its commits to the file, four times."""
        replica = self.replica()
        for _ in range(4):
            replica.kill()
            replica.start(REPLICA_STOP=str(self.chance.randrange(1, 8)))
            until = time.monotonic() + 4
            while replica.is_running and time.monotonic() < until:
                time.sleep(0.02)
        replica.kill()

    def kill_store(self) -> None:
        """The replica's child is killed, and the replica ends."""
        self.replica().kill_store()
        self.pause(0.5, 1)

    def stopped(self, process: Process) -> None:
        process.stop()
        self.pause(1, 4)
        process.go_on()

    def stop_replica(self) -> None:
        self.stopped(self.replica())

    def kill_node(self) -> None:
        self.chance.choice(self.cluster.nodes).kill()
        self.pause(0.5, 2)

    def kill_leader(self) -> None:
        self.leader().kill()
        self.pause(2, 3.5)

    def stop_node(self) -> None:
        self.stopped(self.chance.choice(self.cluster.nodes))

    def stop_leader(self) -> None:
        self.stopped(self.leader())

    def kill_two_nodes(self) -> None:
        for node in self.chance.sample(self.cluster.nodes, 2):
            node.kill()
        self.pause(1, 3)

    def kill_all(self) -> None:
        for process in [*self.cluster.replicas, *self.cluster.nodes]:
            process.kill()

    def cut_a_node(self) -> None:
        """The others don't reach a node, and clients still do."""
        node = self.leader() if self.chance.random() < 0.5 else self.chance.choice(self.cluster.nodes)
        self.cluster.cut_off(node)
        self.pause(3, 5)

    def drop_answers(self) -> None:
        """Answers are thrown away though the transaction went through."""
        for fault in [it for ways in self.cluster.ways.values() for it in ways]:
            fault.drop = 0.3
        self.pause(3, 4)

    def come_late(self) -> None:
        """Transactions reach etcd up to three seconds after their connection was closed."""
        for fault in [it for ways in self.cluster.ways.values() for it in ways]:
            fault.late = 0.2
        self.pause(3, 4)

    def hold_answers(self) -> None:
        """All that a replica is answered comes late, watches too."""
        held, other = self.chance.sample(self.cluster.replicas, 2)
        for fault in self.cluster.ways[held.name]:
            fault.hold = 0.3
        self.races.run(held, other, time.monotonic() + self.chance.uniform(2, 4))

    def silence_watches(self) -> None:
        """A replica's watches get nothing, and don't end."""
        for fault in self.cluster.ways[self.replica().name]:
            fault.is_silent = True
        self.pause(3, 5)
