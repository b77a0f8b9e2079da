"""Forwards bytes between a replica and a node, or between two nodes, and loses or delays them as the trial wants."""
import asyncio
import random
import re
import threading
from typing import Dict, Optional, Set

PIECE = 1 << 16


class Fault:
    """What a forwarder does to what it forwards."""

    def __init__(self) -> None:
        self.drop = 0.0  # which part of the transactions' answers is thrown away
        self.late = 0.0  # which part of the transactions comes late, after its connection was closed
        self.hold = 0.0  # how long an answer is held back at most, in seconds
        self.is_silent = False  # whether watches get nothing
        self.cut: Set[str] = set()  # members that don't get through, by the name that their requests have

    def clear(self) -> None:
        self.drop = self.late = self.hold = 0.0
        self.is_silent = False
        self.cut = set()


async def whole(piece: bytes, reader: asyncio.StreamReader) -> bytes:
    """A request of which this is the first piece."""
    if b"\r\n\r\n" not in piece:
        piece += await reader.readuntil(b"\r\n\r\n")
    head, body = piece.split(b"\r\n\r\n", 1)
    found = re.search(rb"(?i)content-length: *(\d+)", head)
    missing = (int(found[1]) if found else 0) - len(body)
    return piece + (await reader.readexactly(missing) if missing > 0 else b"")


class Link:
    """One connection through a forwarder."""

    def __init__(self, fault: Fault, chance: random.Random, counts: Dict[str, int]) -> None:
        self.fault, self.chance, self.counts = fault, chance, counts
        self.request, self.member = b"", ""

    async def run(self, reader: asyncio.StreamReader, writer: asyncio.StreamWriter, port: int) -> None:
        far_writer: Optional[asyncio.StreamWriter] = None
        try:
            far_reader, far_writer = await asyncio.open_connection("127.0.0.1", port)
            tasks = [asyncio.create_task(self.requests(reader, writer, far_writer)), asyncio.create_task(self.answers(far_reader, writer))]
            _, rest = await asyncio.wait(tasks, return_when=asyncio.FIRST_COMPLETED)
            for task in rest:
                task.cancel()
            await asyncio.gather(*tasks, return_exceptions=True)
        except OSError:
            pass
        finally:
            for it in (writer, far_writer):
                if it is not None:
                    it.close()

    def is_cut(self) -> bool:
        return self.member in self.fault.cut

    def note(self, piece: bytes) -> None:
        """Reads what the last request asks for, and which member asks."""
        if piece.startswith((b"POST ", b"GET ")):
            self.request = piece.split(b"\r\n", 1)[0]
            for line in piece.split(b"\r\n"):
                if line.lower().startswith(b"x-server-from:"):
                    self.member = line.split(b":", 1)[1].strip().decode()

    async def requests(self, reader: asyncio.StreamReader, writer: asyncio.StreamWriter, far: asyncio.StreamWriter) -> None:
        while True:
            piece = await reader.read(PIECE)
            self.note(piece)
            if not piece or self.is_cut():
                return
            if b"/kv/txn" in self.request and self.chance.random() < self.fault.late:
                await self.come_late(await whole(piece, reader), writer, far)
                return
            far.write(piece)
            await far.drain()

    async def come_late(self, request: bytes, writer: asyncio.StreamWriter, far: asyncio.StreamWriter) -> None:
        """Closes the connection of who asks, and sends the request on a while later."""
        self.counts["late"] += 1
        writer.close()
        await asyncio.sleep(self.chance.uniform(0.05, 3))
        far.write(request)
        await far.drain()
        await asyncio.sleep(1)

    async def answers(self, far: asyncio.StreamReader, writer: asyncio.StreamWriter) -> None:
        while True:
            piece = await far.read(PIECE)
            if not piece or self.is_cut():
                return
            if b"/kv/txn" in self.request and self.chance.random() < self.fault.drop:
                self.counts["dropped"] += 1
                return
            if self.fault.hold:
                await asyncio.sleep(self.chance.uniform(0, self.fault.hold))
            while self.fault.is_silent and b"/watch" in self.request:
                await asyncio.sleep(0.1)
            writer.write(piece)
            await writer.drain()


class Forwarders:
    """All forwarders, in a thread of their own."""

    def __init__(self, seed: int) -> None:
        self.loop = asyncio.new_event_loop()
        self.chance = random.Random(seed)
        self.counts = {"late": 0, "dropped": 0}
        threading.Thread(target=self.loop.run_forever, daemon=True).start()

    def add(self, port: int, to: int) -> Fault:
        """Forwards a port to another one, under the fault that it returns."""
        fault = Fault()

        async def serve() -> None:
            run = lambda reader, writer: Link(fault, self.chance, self.counts).run(reader, writer, to)
            await asyncio.start_server(run, "127.0.0.1", port)

        asyncio.run_coroutine_threadsafe(serve(), self.loop).result()
        return fault
