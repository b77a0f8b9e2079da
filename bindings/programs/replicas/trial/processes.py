"""The nodes of etcd and the replicas, as processes in a temporary folder. Each is ended by its own id."""
import http.client
import json
import os
import pathlib
import random
import signal
import socket
import subprocess
import sys
import time
from typing import Any, Dict, List, Optional

HERE = pathlib.Path(__file__).resolve().parent.parent


def free_ports(count: int) -> List[int]:
    """Ports of loopback that nobody listens at, below those that connections get: a process may come back to its own."""
    found: List[int] = []
    while len(found) < count:
        port = random.SystemRandom().randrange(12000, 32000)
        with socket.socket() as it:
            try:
                it.bind(("127.0.0.1", port))
            except OSError:
                continue
        if port not in found:
            found.append(port)
    return found


class Process:
    """A program that is started, killed, stopped and let go on."""

    def __init__(self, name: str, folder: pathlib.Path) -> None:
        self.name, self.folder = name, folder
        self.child: "Optional[subprocess.Popen[bytes]]" = None
        self.is_stopped = False
        folder.mkdir(parents=True, exist_ok=True)

    def command(self) -> List[str]:
        raise NotImplementedError

    def start(self, **more: str) -> None:
        with open(self.folder / "said.txt", "ab") as said:
            self.child = subprocess.Popen(self.command(), stdin=subprocess.DEVNULL, stdout=said, stderr=said, env={**os.environ, **more})

    @property
    def is_running(self) -> bool:
        return self.child is not None and self.child.poll() is None

    def status(self) -> Optional[int]:
        return None if self.child is None else self.child.poll()

    def kill(self) -> None:
        """Kills it, and waits until it is gone."""
        if self.child is not None:
            self.child.kill()
            self.child.wait()
        self.is_stopped = False

    def stop(self) -> None:
        if self.is_running and self.child is not None:
            os.kill(self.child.pid, signal.SIGSTOP)
            self.is_stopped = True

    def go_on(self) -> None:
        if self.is_running and self.child is not None:
            os.kill(self.child.pid, signal.SIGCONT)
        self.is_stopped = False

    def said(self) -> str:
        return (self.folder / "said.txt").read_text(errors="replace")


class Node(Process):
    """A node of etcd. Others reach it at the port `face`, which leads to `peer`."""

    def __init__(self, number: int, folder: pathlib.Path, ports: List[int]) -> None:
        super().__init__(f"node{number}", folder / f"node{number}")
        self.client, self.peer, self.face = ports
        self.url = f"http://127.0.0.1:{self.client}"
        self.cluster = ""
        self.ident = ""

    def command(self) -> List[str]:
        return [
            "etcd", "--name", self.name, "--data-dir", str(self.folder / "data"), "--log-level", "error",
            "--listen-client-urls", self.url, "--advertise-client-urls", self.url,
            "--listen-peer-urls", f"http://127.0.0.1:{self.peer}", "--initial-advertise-peer-urls", f"http://127.0.0.1:{self.face}",
            "--initial-cluster", self.cluster, "--initial-cluster-token", "replicas",
        ]  # fmt: skip

    def call(self, path: str, body: Dict[str, Any], seconds: float = 1.0) -> Optional[Dict[str, Any]]:
        """One call of the node's gateway, or None if there is no answer."""
        connection = http.client.HTTPConnection("127.0.0.1", self.client, timeout=seconds)
        try:
            connection.request("POST", f"/v3/{path}", json.dumps(body))
            answer = connection.getresponse()
            found: Dict[str, Any] = json.loads(answer.read())
            return found if answer.status == 200 else None
        except (OSError, http.client.HTTPException, ValueError):
            return None
        finally:
            connection.close()


class Replica(Process):
    """A replica, which reaches the nodes by ports of its own."""

    def __init__(self, name: str, folder: pathlib.Path, program: pathlib.Path, tool: str, nodes: List[int], *more: str) -> None:
        super().__init__(name, folder / name)
        self.program, self.tool, self.nodes, self.more = program, tool, nodes, list(more)
        (self.port,) = free_ports(1)
        self.store = self.folder / "pairs.db"

    def command(self) -> List[str]:
        urls = ",".join(f"http://127.0.0.1:{port}" for port in self.nodes)
        words = ["--etcd", urls, "--store", str(self.store), "--listen", f"127.0.0.1:{self.port}", "--name", self.name]
        return [sys.executable, str(self.program / "replica"), *words, "--storetool", self.tool, *self.more]

    def kill_store(self) -> None:
        """Kills the child that has the file."""
        if not self.is_running or self.child is None:
            return
        children = pathlib.Path(f"/proc/{self.child.pid}/task/{self.child.pid}/children").read_text().split()
        for child in children:
            os.kill(int(child), signal.SIGKILL)

    def ask(self, *lines: str, seconds: float = 15.0) -> Optional[List[str]]:
        """The answers to lines on a connection of their own, or None if it ended."""
        try:
            with socket.create_connection(("127.0.0.1", self.port), seconds) as connection:
                connection.sendall("".join(f"{line}\n" for line in lines).encode())
                with connection.makefile("r") as answers:
                    found = [answers.readline() for _ in lines]
            return [it[:-1] for it in found] if found[-1].endswith("\n") else None
        except OSError:
            return None

    def await_answer(self, seconds: float) -> bool:
        """Waits until it answers a linear read."""
        until = time.monotonic() + seconds
        while time.monotonic() < until and self.is_running:
            answer = self.ask("len")
            if answer is not None and answer != ["unavailable"]:
                return True
            time.sleep(0.02)
        return False
