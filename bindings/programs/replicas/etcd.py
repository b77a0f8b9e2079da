"""Calls of etcd's JSON gateway: one node after another until one answers."""
import base64
import http.client
import json
import random
import threading
import time
import urllib.parse
from typing import Any, Dict, Iterator, Optional, Sequence

ATTEMPT = 1.0  # seconds that one call may take before it is made at the next node
QUIET = 2.0  # seconds without a word after which a watch isn't trusted any more
FULL = 429  # the status with which etcd refuses a write for lack of space

Json = Dict[str, Any]


class Lost(Exception):
    """There is no answer. What was asked for may have been done, or may be done yet."""


class Full(Exception):
    """etcd has no space left, and nothing was done."""


def packed(text: str) -> str:
    """A key or a value as the gateway takes it."""
    return base64.b64encode(text.encode()).decode()


def unpacked(text: str) -> str:
    return base64.b64decode(text).decode()


class Etcd:
    """The nodes, and a connection for each thread."""

    def __init__(self, urls: Sequence[str]) -> None:
        self.nodes = [urllib.parse.urlsplit(url).netloc for url in urls]
        self.here = threading.local()

    def connection(self) -> http.client.HTTPConnection:
        """This thread's connection, which isn't open before its first call."""
        if not hasattr(self.here, "node"):
            self.here.node, self.here.connection = random.randrange(len(self.nodes)), None
        if self.here.connection is None:
            self.here.connection = http.client.HTTPConnection(self.nodes[self.here.node], timeout=ATTEMPT)
        found: http.client.HTTPConnection = self.here.connection
        return found

    def turn(self) -> None:
        """Closes this thread's connection. Its next one is to the next node."""
        self.connection().close()
        self.here.node = (self.here.node + 1) % len(self.nodes)
        self.here.connection = None

    def call(self, path: str, body: Json) -> Json:
        """One call at one node. Raises Lost or Full."""
        try:
            connection = self.connection()
            connection.request("POST", f"/v3/{path}", json.dumps(body))
            answer = connection.getresponse()
            text = answer.read()
            if answer.status == FULL:
                raise Full(text.decode(errors="replace"))
            if answer.status == 200:
                found: Json = json.loads(text)
                return found
        except (OSError, http.client.HTTPException, ValueError):
            pass
        self.turn()
        raise Lost

    def steady(self, path: str, body: Json, until: Optional[float] = None) -> Json:
        """Makes a call that may be repeated until a node answers it. Raises Lost if none has by then."""
        pause = 0.02
        while True:
            try:
                return self.call(path, body)
            except (Lost, Full):
                if until is not None and time.monotonic() > until:
                    raise Lost from None
            time.sleep(pause)
            pause = min(2 * pause, 0.3)

    def watch(self, create: Json) -> Iterator[Json]:
        """The results of a watch, until it is quiet for too long or ends."""
        connection = http.client.HTTPConnection(self.nodes[random.randrange(len(self.nodes))], timeout=QUIET)
        try:
            connection.request("POST", "/v3/watch", json.dumps({"create_request": create}))
            stream = connection.getresponse()
            for line in iter(stream.readline, b""):
                result: Json = json.loads(line).get("result", {})
                if result.get("canceled"):
                    return
                yield result
        except (OSError, http.client.HTTPException, ValueError):
            return
        finally:
            connection.close()
