"""A plain model of `treetool`: a sorted list of keys with their values, and the grammar of docs/STRUCTURE.md.

It is written from the rules alone. `depth` and `spare` come from the shape of the tree, in tree_shape.py, as long as nothing was
removed but by `clear`: no rule says what shape a removal leaves.
"""
import re
from bisect import bisect_left, bisect_right

from tree_shape import TreeShape

NUMBER = re.compile(rb"0|[1-9][0-9]{0,19}")
LARGEST = 2**64 - 1
LONGEST = 256
BAD = b"?"


class Malformed(Exception):
    """A line that the grammar doesn't have."""


def number_of(word):
    """The number that a word is."""
    number = int(word) if NUMBER.fullmatch(word) else LARGEST + 1
    if number > LARGEST:
        raise Malformed
    return number


def bound_of(word):
    """A bound as the number in it and whether it includes the number; both are None where the end is open."""
    if word == b"-":
        return None, None
    if word[:1] not in (b"[", b"("):
        raise Malformed
    return number_of(word[1:]), word[:1] == b"["


class OrderedMap:
    """The pairs of an index with so many slots a leaf, with the shape of its tree while it is known."""

    def __init__(self, slots):
        self.slots = slots
        self.keys = []
        self.values = {}
        self.shape = TreeShape(slots)

    def answer(self, line):
        """Applies a line and gives its answer; None where the rules leave the answer open."""
        words = line.split(b" ")
        call, kinds = CALLS.get(words[0], (None, ()))
        if call is None or len(line) > LONGEST or len(words) != 1 + len(kinds):
            return BAD
        try:
            return call(self, *[kind(word) for kind, word in zip(kinds, words[1:])])
        except Malformed:
            return BAD

    def insert(self, key, value):
        if key in self.values:
            return b"duplicate"
        return self.upsert(key, value)

    def upsert(self, key, value):
        if key not in self.values:
            self.keys.insert(bisect_left(self.keys, key), key)
        self.values[key] = value
        if self.shape:
            self.shape.write(key)
        return b"ok"

    def remove(self, key):
        if key not in self.values:
            return b"false"
        self.drop(bisect_left(self.keys, key), bisect_right(self.keys, key))
        return b"true"

    def remove_if(self, key, value):
        return self.remove(key) if self.values.get(key) == value else b"false"

    def remove_range(self, low, high):
        self.drop(*self.places(low, high))
        return b"ok"

    def clear(self):
        self.__init__(self.slots)
        return b"ok"

    def drop(self, first, end):
        """Drops the pairs from one place up to another, after which the shape is unknown."""
        if first < end:
            for key in self.keys[first:end]:
                del self.values[key]
            del self.keys[first:end]
            self.shape = None

    def places(self, low, high):
        """The place of the first key within both bounds, and the one behind the last."""
        (least, includes_least), (greatest, includes_greatest) = low, high
        first, end = 0, len(self.keys)
        if least is not None:
            first = (bisect_left if includes_least else bisect_right)(self.keys, least)
        if greatest is not None:
            end = (bisect_right if includes_greatest else bisect_left)(self.keys, greatest)
        return first, max(first, end)

    def peek(self, key):
        return b"%d" % self.values[key] if key in self.values else b"none"

    def contains(self, key):
        return b"true" if key in self.values else b"false"

    def length(self):
        return b"%d" % len(self.keys)

    def depth(self):
        return b"%d" % self.shape.depth() if self.shape else None

    def spare(self):
        return b"%d" % self.shape.spare() if self.shape else None

    def pair(self, key):
        return b"%d=%d" % (key, self.values[key])

    def ascending(self):
        return b" ".join(map(self.pair, self.keys))

    def descending(self):
        return b" ".join(map(self.pair, reversed(self.keys)))

    def range(self, low, high):
        first, end = self.places(low, high)
        return b" ".join(map(self.pair, self.keys[first:end]))

    def locate(self, key):
        if key in self.values:
            return b"exact " + self.pair(key)
        place = bisect_left(self.keys, key)
        near = [self.pair(it) for it in self.keys[max(place - 1, 0) : place + 1]]
        if len(near) == 2:
            return b"between " + b" ".join(near)
        if not near:
            return b"empty"
        return (b"smaller " if place else b"larger ") + near[0]


CALLS = {
    b"insert": (OrderedMap.insert, (number_of, number_of)),
    b"upsert": (OrderedMap.upsert, (number_of, number_of)),
    b"remove": (OrderedMap.remove, (number_of,)),
    b"remove_if": (OrderedMap.remove_if, (number_of, number_of)),
    b"remove_range": (OrderedMap.remove_range, (bound_of, bound_of)),
    b"clear": (OrderedMap.clear, ()),
    b"peek": (OrderedMap.peek, (number_of,)),
    b"contains": (OrderedMap.contains, (number_of,)),
    b"len": (OrderedMap.length, ()),
    b"depth": (OrderedMap.depth, ()),
    b"spare": (OrderedMap.spare, ()),
    b"iter": (OrderedMap.ascending, ()),
    b"back": (OrderedMap.descending, ()),
    b"range": (OrderedMap.range, (bound_of, bound_of)),
    b"locate": (OrderedMap.locate, (number_of,)),
}
