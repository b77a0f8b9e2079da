"""A read that is sent while another read's question is on its way, right after a write was answered elsewhere."""
import threading
import time

from trial.clients import Line, World
from trial.processes import Replica

FIRST = 3 * 10**9  # the first key
VALUES = 9 * 10**12


class Races:
    """Races at a replica whose answers are held back."""

    def __init__(self, world: World) -> None:
        self.world, self.count = world, 0

    def run(self, held: Replica, other: Replica, until: float) -> None:
        while time.monotonic() < until:
            try:
                lines = [Line(held), Line(held), Line(other)]
            except OSError:
                time.sleep(0.05)
                continue
            self.race(*lines)
            for line in lines:
                line.close()

    def race(self, early: Line, late: Line, writer: Line) -> None:
        self.count += 1
        key, value = FIRST + self.count // 4, VALUES + self.count

        def ask() -> None:
            self.world.note(early.call([f"peek {key}"]))

        asking = threading.Thread(target=ask)
        asking.start()
        time.sleep(0.02)
        self.world.note(writer.call([f"upsert {key} {value}"]))
        self.world.note(late.call([f"peek {key}"]))
        asking.join()
