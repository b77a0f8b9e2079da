"""Connections: lines come in, and each gets one answer, in the order of the lines."""
import socket
import socketserver
import sys
import time
from typing import List, Union

from asker import Asker
from ending import REFUSED, end
from etcd import Lost
from grammar import LONGEST, Request, request_of
from jobs import look
from log import Log
from state import State, Wish
from writer import PATIENCE, Writer

PIECE = 1 << 16  # bytes that are taken at once


class Replica:
    """What connections call."""

    def __init__(self, log: Log, log_name: str, state: State, writer: Writer, asker: Asker) -> None:
        self.log, self.log_name, self.state, self.writer, self.asker = log, log_name, state, writer, asker

    def status(self) -> str:
        with self.state.lock:
            return f"applied {self.state.number} revision {self.state.revision} log {self.log_name}"

    def forget(self, name: str) -> str:
        try:
            self.log.forget(name, time.monotonic() + PATIENCE)
        except Lost:
            return "unknown"
        return "ok"


class Connection:
    """The answers to one connection's lines."""

    def __init__(self, replica: Replica) -> None:
        self.replica = replica
        self.is_linear = True
        # Whether the lines that are being answered came before the log's end was asked for.
        self.is_asked = False
        self.answers: List[Union[str, Wish]] = []

    def answered(self, lines: List[bytes]) -> bytes:
        """The answers to lines that came together."""
        self.is_asked = False
        for line in lines:
            self.take(line)
        self.settle()
        text = "".join(f"{answer}\n" for answer in self.answers).encode()
        self.answers = []
        return text

    def take(self, line: bytes) -> None:
        """Answers a line, or lets its answer be awaited if it is a write."""
        request = request_of(line)
        if request is not None and request.is_write:
            self.answers.append(self.replica.writer.wish(request))
            return
        self.settle()
        self.answers.append(self.word(line) if request is None else self.read(request))

    def settle(self) -> None:
        """Waits for the answers that are awaited."""
        for place, answer in enumerate(self.answers):
            if isinstance(answer, Wish):
                self.answers[place] = self.replica.writer.answer(answer)

    def read(self, request: Request) -> str:
        if self.is_linear and not self.is_asked:
            if not self.replica.asker.reach_end():
                return "unavailable"
            self.is_asked = True
        return self.replica.state.read(request)

    def word(self, line: bytes) -> str:
        """The answer to a line that isn't of the grammar."""
        if line in (b"local", b"linear"):
            self.is_linear = line == b"linear"
            return "ok"
        if line == b"status":
            return self.replica.status()
        word, _, name = line.partition(b" ")
        if word == b"forget" and is_name(name.decode(errors="replace")):
            return self.replica.forget(name.decode())
        return "?"


def is_name(text: str) -> bool:
    """Whether a replica may have this name."""
    return 0 < len(text) <= 64 and text.isascii() and text.replace("-", "a").replace("_", "a").isalnum()


class Handler(socketserver.BaseRequestHandler):
    """A connection's thread."""

    server: "Server"

    def handle(self) -> None:
        self.request.setsockopt(socket.IPPROTO_TCP, socket.TCP_NODELAY, 1)
        connection, rest = Connection(self.server.replica), b""
        while True:
            piece = self.request.recv(PIECE)
            *lines, rest = (rest + piece).split(b"\n")
            if not piece and rest:
                lines, rest = [rest], b""
            # Of a line that is too long already no more is kept.
            rest = rest[: LONGEST + 1]
            if lines:
                self.request.sendall(connection.answered(lines))
            if not piece:
                return


class Server(socketserver.ThreadingTCPServer):
    """The port."""

    allow_reuse_address = True
    daemon_threads = True
    request_queue_size = 128

    def __init__(self, address: "tuple[str, int]", replica: Replica) -> None:
        super().__init__(address, Handler)
        self.replica = replica

    def service_actions(self) -> None:
        """Called twice a second."""
        look()

    def handle_error(self, request: object, client_address: object) -> None:
        """Called if a connection ends by an exception. For lack of memory or threads it ends alone, since it changed nothing."""
        error = sys.exc_info()[1]
        if not isinstance(error, (OSError, MemoryError, RuntimeError)):
            end(REFUSED, f"a connection failed: {error!r}")
