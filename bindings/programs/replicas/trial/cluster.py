"""Three nodes of etcd and three replicas, with a forwarder on each way between them."""
import pathlib
import time
from typing import Dict, List, Optional

from trial.forwarder import Fault, Forwarders
from trial.processes import Node, Replica, free_ports


class Cluster:
    """All processes of a trial."""

    def __init__(self, folder: pathlib.Path, program: pathlib.Path, tool: str, seed: int, *more: str) -> None:
        self.folder, self.program, self.tool, self.more = folder, program, tool, more
        self.forwarders = Forwarders(seed)
        ports = free_ports(9)
        self.nodes = [Node(at, folder, ports[3 * at : 3 * at + 3]) for at in range(3)]
        for node in self.nodes:
            node.cluster = ",".join(f"{it.name}=http://127.0.0.1:{it.face}" for it in self.nodes)
        # What is done on the way to each node from the other ones, and from each replica.
        self.between: List[Fault] = [self.forwarders.add(node.face, node.peer) for node in self.nodes]
        self.ways: Dict[str, List[Fault]] = {}
        self.replicas = [self.replica(name) for name in ("one", "two", "three")]

    def replica(self, name: str, *more: str) -> Replica:
        """A replica with ways of its own to the nodes."""
        ports = free_ports(3)
        self.ways[name] = [self.forwarders.add(port, node.client) for port, node in zip(ports, self.nodes)]
        return Replica(name, self.folder, self.program, self.tool, ports, *self.more, *more)

    def start(self) -> None:
        """Starts all, and waits until each replica answers."""
        for node in self.nodes:
            node.start()
        if not self.await_nodes(30):
            raise SystemExit(f"try: etcd doesn't answer: {self.nodes[0].said()[-2000:]}")
        for replica in self.replicas:
            replica.start()
        for replica in self.replicas:
            if not replica.await_answer(30):
                raise SystemExit(f"try: replica {replica.name} doesn't answer: {replica.said()[-2000:]}")

    def status_of(self, node: Node) -> Optional[Dict[str, str]]:
        """What a node says of itself, if it has a leader."""
        found = node.call("maintenance/status", {}) if node.is_running and not node.is_stopped else None
        if found is None or found.get("leader", "0") == "0":
            return None
        node.ident = format(int(found["header"]["member_id"]), "x")
        return {"leader": format(int(found["leader"]), "x"), "index": found.get("raftAppliedIndex", "0")}

    def await_nodes(self, seconds: float) -> bool:
        """Waits until all nodes have the same leader, and have applied nearly the same."""
        until = time.monotonic() + seconds
        while time.monotonic() < until:
            told = [self.status_of(node) for node in self.nodes]
            if all(told) and len({it["leader"] for it in told if it}) == 1:
                places = [int(it["index"]) for it in told if it]
                if max(places) - min(places) < 50:
                    return True
            time.sleep(0.1)
        return False

    def leader(self) -> Optional[Node]:
        for node in self.nodes:
            told = self.status_of(node)
            if told is not None:
                return next((it for it in self.nodes if it.ident == told["leader"]), None)
        return None

    def cut_off(self, node: Node) -> None:
        """Lets nothing through between a node and the other ones."""
        for it, fault in zip(self.nodes, self.between):
            fault.cut = {other.ident for other in self.nodes if other is not node} if it is node else {node.ident}

    def heal(self) -> None:
        """Takes all faults away, and starts what doesn't run."""
        for fault in [*self.between, *(it for ways in self.ways.values() for it in ways)]:
            fault.clear()
        for process in [*self.nodes, *self.replicas]:
            if process.is_stopped:
                process.go_on()
            if not process.is_running:
                process.start()

    def end(self) -> None:
        for process in [*self.replicas, *self.nodes]:
            process.kill()

