"""Reads the whole log while it is trimmed: the trial's own record, which it registers as a replica does."""
import base64
import json
import threading
import time
from typing import Any, Dict, List, Optional

from trial.processes import Node


def b64(text: str) -> str:
    return base64.b64encode(text.encode()).decode()


class Recorder(threading.Thread):
    """A thread that asks for the entries behind the last one that it has."""

    def __init__(self, nodes: List[Node]) -> None:
        super().__init__(daemon=True)
        self.nodes = nodes
        self.entries: List[List[str]] = []  # the lines of each entry
        self.problem = ""
        self.told = 0
        self.is_over = False

    def call(self, path: str, body: Dict[str, Any]) -> Optional[Dict[str, Any]]:
        for node in self.nodes:
            found = node.call(path, body) if node.is_running and not node.is_stopped else None
            if found is not None:
                return found
        return None

    def run(self) -> None:
        self.tell()
        while not self.is_over and not self.problem:
            self.read()
            if len(self.entries) > self.told + 20:
                self.tell()
            time.sleep(0.2)

    def tell(self) -> None:
        """Registers how far the record is."""
        number = max(len(self.entries) - 1, 0)
        if self.call("kv/put", {"key": b64("registry/replicas/recorder"), "value": b64(str(number))}) is not None:
            self.told = number

    def read(self) -> bool:
        """Reads what is there, and returns whether it knows that nothing is missing."""
        while True:
            body = {"key": b64(f"registry/log/{len(self.entries):020}"), "range_end": b64("registry/log0"), "limit": "200"}
            found = self.call("kv/range", body)
            if found is None:
                return False
            pairs = found.get("kvs", [])
            for pair in pairs:
                number = int(base64.b64decode(pair["key"])[-20:])
                if number != len(self.entries):
                    self.problem = f"the log has entry {number} behind entry {len(self.entries) - 1}"
                    return False
                self.entries.append(json.loads(base64.b64decode(pair["value"]))["records"])
            if not pairs:
                return True
