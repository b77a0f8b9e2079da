"""Keeps a replica's pairs in its file: what is applied to the index is committed a little later, with its number.

An acknowledged write is in etcd, so no answer waits for the file. A replica that is killed replays what its file lacks.
"""
import queue
from typing import List, NamedTuple, Optional, Sequence, Tuple

from area import CELLS, Area, Stamp, free_place, parted
from ending import REFUSED, end, stop_point
from jobs import begin
from pairs import Change, Pair
from tool import MESSAGE, Tool, ToolEnded

WAITING = 4096  # entries that may wait for the file
ROOM = MESSAGE - 2000  # bytes of changes in a commit; the area takes the rest
LINE = 60  # bytes of a change's line at most


class Applied(NamedTuple):
    """An entry that was applied to the index, and what it changed."""

    number: int
    revision: int
    changes: List[Change]


def read_file(tool: Tool) -> Tuple[Optional[Area], Optional[Stamp], List[Pair]]:
    """What a file has. A new one has no area and no stamp. Raises NotOurs."""
    (answer,) = tool.commit(["iter"])
    words = (word.split("=") for word in answer.split(" ") if word)
    pairs = [(int(key), int(value)) for key, value in words]
    if not pairs:
        return None, None, []
    return parted(pairs)


class Keeper:
    """The file. A thread of its own commits what waits, as much as fits at once."""

    def __init__(self, tool: Tool, area: Optional[Area], stamp: Stamp) -> None:
        self.tool, self.stamp = tool, stamp
        self.waiting: "queue.Queue[Applied]" = queue.Queue(WAITING)
        self.rest: Optional[Applied] = None
        self.area = area or Area(0, None)
        if area is None:
            self.area.place = free_place(self.is_free)
            self.commit([], stamp)
        self.on_disk = stamp.number

    def is_free(self, place: int) -> bool:
        """Whether the file has no key in an area at this place."""
        return self.tool.commit([f"range [{place} [{place + CELLS - 1}"]) == [""]

    def take(self, applied: Applied) -> None:
        """Keeps an entry later. Waits if very many are waiting."""
        self.waiting.put(applied)

    def start(self) -> None:
        begin("keeper", self.run)

    def run(self) -> None:
        while True:
            try:
                group = self.next_group()
                number, revision, _ = group[-1]
                self.commit([change for applied in group for change in applied.changes], Stamp(self.stamp.log, number, revision))
                self.on_disk = number
            except ToolEnded as ended:
                end(REFUSED, f"the store ended: {ended}")
            except MemoryError:
                end(REFUSED, "an allocation failed while the file was written")

    def next_group(self) -> List[Applied]:
        """Waits for an entry, and returns it with those behind it that fit into the same commit."""
        group = [self.rest or self.waiting.get()]
        self.rest, size = None, len(group[0].changes)
        while not self.waiting.empty():
            applied = self.waiting.get()
            size += len(applied.changes)
            if size * LINE > ROOM:
                self.rest = applied
                break
            group.append(applied)
        return group

    def commit(self, changes: Sequence[Change], stamp: Stamp) -> None:
        """Commits changes and the stamp, all or nothing."""
        self.send(self.area.batch(changes, stamp, self.is_free))

    def send(self, lines: Sequence[str]) -> None:
        """Commits lines as one message. Ends the replica if one of them isn't done."""
        answers = self.tool.commit(lines)
        if not {"ok", "true", "false"}.issuperset(answers):
            end(REFUSED, "the store couldn't allocate")
        stop_point()
