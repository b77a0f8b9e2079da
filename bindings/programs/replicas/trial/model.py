"""What the lines answer, by a plain list in key order. It shares no text with the program."""
import bisect
from typing import Dict, List, Tuple


class Model:
    """The pairs after the writes so far."""

    def __init__(self) -> None:
        self.keys: List[int] = []
        self.values: Dict[int, int] = {}

    def between(self, low: str, high: str) -> Tuple[int, int]:
        """The places of the first key within bounds and of the one behind the last."""
        first, behind = 0, len(self.keys)
        if low != "-":
            first = (bisect.bisect_left if low[0] == "[" else bisect.bisect_right)(self.keys, int(low[1:]))
        if high != "-":
            behind = (bisect.bisect_right if high[0] == "[" else bisect.bisect_left)(self.keys, int(high[1:]))
        return first, max(first, behind)

    def write(self, line: str) -> str:
        word, *rest = line.split(" ")
        if word == "clear":
            self.keys, self.values = [], {}
            return "ok"
        if word == "remove_range":
            first, behind = self.between(*rest)
            for key in self.keys[first:behind]:
                del self.values[key]
            del self.keys[first:behind]
            return "ok"
        key = int(rest[0])
        if word in ("remove", "remove_if"):
            if key not in self.values or (word == "remove_if" and self.values[key] != int(rest[1])):
                return "false"
            del self.values[key]
            self.keys.pop(bisect.bisect_left(self.keys, key))
            return "true"
        if word == "insert" and key in self.values:
            return "duplicate"
        if key not in self.values:
            bisect.insort(self.keys, key)
        self.values[key] = int(rest[1])
        return "ok"

    def shown(self, keys: List[int]) -> str:
        return " ".join(f"{key}={self.values[key]}" for key in keys)

    def read(self, line: str) -> str:
        word, *rest = line.split(" ")
        if word == "len":
            return str(len(self.keys))
        if word == "iter":
            return self.shown(self.keys)
        if word == "back":
            return self.shown(self.keys[::-1])
        if word == "range":
            first, behind = self.between(*rest)
            return self.shown(self.keys[first:behind])
        key = int(rest[0])
        if word == "peek":
            return str(self.values.get(key, "none"))
        if word == "contains":
            return "true" if key in self.values else "false"
        return self.located(key)

    def located(self, key: int) -> str:
        if key in self.values:
            return "exact " + self.shown([key])
        place = bisect.bisect_left(self.keys, key)
        near = self.keys[max(place - 1, 0) : place + 1]
        if not near:
            return "empty"
        name = "between" if len(near) == 2 else "larger" if place == 0 else "smaller"
        return f"{name} {self.shown(near)}"
