"""The lines of treetool's grammar: which requests there are, and how a line is read."""
import re
from typing import NamedTuple, Optional, Tuple, Union

TOP = 2**64 - 1
LONGEST = 256  # bytes of a line

NUMBER = re.compile(rb"0|[1-9][0-9]{0,19}")
# What each word wants behind it: n is a number, b a bound.
SHAPES = {
    b"insert": "nn", b"upsert": "nn", b"remove_if": "nn", b"remove": "n", b"remove_range": "bb", b"clear": "",
    b"peek": "n", b"contains": "n", b"locate": "n", b"range": "bb",
    b"len": "", b"iter": "", b"back": "", b"depth": "", b"spare": "",
}
WRITES = {"insert", "upsert", "remove", "remove_if", "remove_range", "clear"}


class Bound(NamedTuple):
    """One end of a range. Without a number the range is open there."""

    number: Optional[int]
    is_included: bool


Argument = Union[int, Bound]


class Request(NamedTuple):
    """A line that is a request."""

    word: str
    arguments: Tuple[Argument, ...]
    line: str

    @property
    def is_write(self) -> bool:
        return self.word in WRITES

    def number(self, place: int) -> int:
        """The number at a place behind the word."""
        found = self.arguments[place]
        assert isinstance(found, int)
        return found

    def bounds(self) -> Tuple[Bound, Bound]:
        """The two bounds behind the word."""
        low, high = self.arguments
        assert isinstance(low, Bound) and isinstance(high, Bound)
        return low, high


def number_of(word: bytes) -> Optional[int]:
    """Reads a number, or returns None if the word isn't one."""
    if not NUMBER.fullmatch(word):
        return None
    number = int(word)
    return number if number <= TOP else None


def bound_of(word: bytes) -> Optional[Bound]:
    """Reads a bound, or returns None if the word isn't one."""
    if word == b"-":
        return Bound(None, True)
    number = number_of(word[1:])
    if word[:1] not in (b"[", b"(") or number is None:
        return None
    return Bound(number, word[:1] == b"[")


def request_of(line: bytes) -> Optional[Request]:
    """Reads a line, or returns None if it is no request."""
    word, *behind = line.split(b" ")
    shape = SHAPES.get(word)
    if shape is None or len(line) > LONGEST or len(behind) != len(shape):
        return None
    arguments = tuple(number_of(it) if kind == "n" else bound_of(it) for kind, it in zip(shape, behind))
    if None in arguments:
        return None
    return Request(word.decode(), tuple(it for it in arguments if it is not None), line.decode())
