"""A store's file, by `storetool` as a child process. What is sent in one message is one commit.

`storetool` commits by one sync what one read takes, at most 64 KiB. A pipe gives no promise of how much that is, so the child's
input is a socket that keeps the bounds of messages: one read takes one message, whole.
"""
import os
import pathlib
import socket
import subprocess
import time
from typing import List, Optional, Sequence

MESSAGE = 60_000  # bytes of a message at most
OPENING = 5.0  # seconds that the child of a replica that was killed may take to end
CANNOT_OPEN = 4  # storetool's status if a file can't be opened
BUILT = pathlib.Path(__file__).resolve().parents[3] / "crates/storetool/out/storetool"


class ToolEnded(Exception):
    """The child ended. What it said and its status."""

    def __init__(self, status: int, message: str) -> None:
        super().__init__(message or f"storetool ended with status {status}")
        self.status = status


class Tool:
    """A running child. One thread uses it."""

    def __init__(self, program: str, path: str) -> None:
        ours, its = socket.socketpair(socket.AF_UNIX, socket.SOCK_SEQPACKET)
        with its:
            words = [program, os.path.abspath(path)]
            # In a session of its own, so that Ctrl-C ends the replica alone, and the child once its input ends.
            self.child = subprocess.Popen(words, stdin=its.fileno(), stdout=subprocess.PIPE, stderr=subprocess.PIPE, start_new_session=True)
        self.messages = ours
        self.commit(["len"])

    def commit(self, lines: Sequence[str]) -> List[str]:
        """Sends lines as one message, and returns their answers once they are on the disk. Raises ToolEnded."""
        message = "".join(f"{line}\n" for line in lines).encode()
        if len(message) > MESSAGE:
            raise ValueError(f"a commit of {len(message)} bytes")
        try:
            self.messages.sendall(message)
        except OSError:
            pass  # The child ended, and its answers are missing.
        assert self.child.stdout is not None
        answers = [self.child.stdout.readline() for _ in lines]
        if not answers[-1].endswith(b"\n"):
            self.fail()
        return [answer[:-1].decode() for answer in answers]

    def fail(self) -> None:
        """Raises what the child said at its end."""
        assert self.child.stderr is not None
        message = self.child.stderr.read().decode(errors="replace").strip()
        raise ToolEnded(self.child.wait(), message)

    def test_messages(self) -> None:
        """Raises an error if one read doesn't take a whole message, as a program of another version might."""
        lines = ["len"] * (MESSAGE // 4)
        self.messages.sendall("".join(f"{line}\n" for line in lines).encode())
        self.messages.sendall(b"?\n")
        assert self.child.stdout is not None
        answers = 0
        for answer in iter(self.child.stdout.readline, b"?\n"):
            if not answer:
                self.fail()
            answers += 1
        if answers != len(lines):
            raise ToolEnded(-1, f"storetool reads less than {MESSAGE} bytes at once")


def opened(program: Optional[str], path: str) -> Tool:
    """Opens a store. Waits for the child of a replica that was killed. Raises ToolEnded, or OSError if there is no program."""
    until = time.monotonic() + OPENING
    while True:
        try:
            tool = Tool(program or str(BUILT), path)
            tool.test_messages()
            return tool
        except ToolEnded as ended:
            if ended.status != CANNOT_OPEN or time.monotonic() > until:
                raise
        time.sleep(0.05)
