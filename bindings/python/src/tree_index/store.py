"""A sorted mapping of ints to ints in a file that survives any crash, by ``storetool`` as a child process.

>>> with open_store("prices.db") as store:              # doctest: +SKIP
...     store[101] = 5
...     store.update({102: 7, 104: 1})
...     del store[102]
...     print(list(store.items()))
[(101, 5), (104, 1)]

A write is on the disk when its call returns, or its call raises.
"""
import os
import shutil
import subprocess
from collections.abc import Mapping, MutableMapping

__all__ = ["Store", "StoreError", "open_store"]

_LARGEST = 2**64 - 1
# How many lines are sent before their answers are read: fewer bytes than a pipe holds.
_GROUP = 1000


class StoreError(OSError):
    """The store can't be opened, or can't go on. ``status`` is that of ``storetool``: 2 for its streams, 3 for a commit that
    failed, 4 for a file that can't be opened, as one that another process has open, and 5 for damage or a file of something
    else. Nothing that was committed is lost."""

    def __init__(self, status, message):
        super().__init__(message)
        self.status = status


def open_store(path, *, sync="group", two_syncs=False, program=None):
    """Opens the store in a file, and makes it if it is missing.

    ``sync`` is ``"group"``, ``"each"`` or ``"none"``: with ``"none"`` a write survives the end of the process, but not that of
    the machine. ``two_syncs`` is for a disk that may leave a torn write as anything. ``program`` is a built ``storetool``; without
    it that in the environment's ``STORETOOL`` or else in its ``PATH`` is taken.

    Raises ``StoreError`` if the store can't be opened.
    """
    return Store(path, sync=sync, two_syncs=two_syncs, program=program)


class Store(MutableMapping):
    """The pairs of a store, in the order of their keys. Keys and values are ints between 0 and 2**64 - 1."""

    def __init__(self, path, *, sync="group", two_syncs=False, program=None):
        found = program or os.environ.get("STORETOOL") or shutil.which("storetool")
        if found is None:
            raise FileNotFoundError("no storetool: name it in STORETOOL, or put it into PATH")
        if sync not in ("each", "group", "none"):
            raise ValueError(f"sync is {sync!r}, and neither 'each', 'group' nor 'none'")
        words = [found, os.path.abspath(os.fspath(path)), "--sync", sync, *(["--two-syncs"] if two_syncs else [])]
        self._child = subprocess.Popen(words, stdin=subprocess.PIPE, stdout=subprocess.PIPE, stderr=subprocess.PIPE)
        self._length()

    def close(self):
        """Closes the store. Does nothing if it is closed."""
        child, self._child = self._child, None
        if child is None:
            return
        try:
            child.stdin.close()
        except BrokenPipeError:
            pass
        message = child.stderr.read().decode(errors="replace").strip()
        status = child.wait()
        child.stdout.close()
        child.stderr.close()
        if status != 0:
            raise StoreError(status, message)

    def __enter__(self):
        return self

    def __exit__(self, *_):
        self.close()

    def __del__(self):
        child = getattr(self, "_child", None)
        if child is not None:
            child.stdin.close()
            child.stdout.close()
            child.stderr.close()
            child.wait()

    def _ask(self, lines):
        """The answers to lines, which are committed together as far as they are read together."""
        if self._child is None:
            raise ValueError("the store is closed")
        answers = []
        for start in range(0, len(lines), _GROUP):
            group = lines[start : start + _GROUP]
            try:
                self._child.stdin.write(b"".join(group))
                self._child.stdin.flush()
            except BrokenPipeError:
                pass
            for _ in group:
                answer = self._child.stdout.readline()
                if not answer.endswith(b"\n"):
                    self.close()
                    raise StoreError(-1, "storetool ended without a word")
                answers.append(answer[:-1])
        if b"refused" in answers:
            raise MemoryError("storetool couldn't allocate")
        return answers

    def _length(self):
        return int(self._ask([b"len\n"])[0])

    def __len__(self):
        return self._length()

    def __getitem__(self, key):
        (answer,) = self._ask([b"peek %d\n" % _number(key)])
        if answer == b"none":
            raise KeyError(key)
        return int(answer)

    def __contains__(self, key):
        return _is_number(key) and self._ask([b"contains %d\n" % key]) == [b"true"]

    def __setitem__(self, key, value):
        self._ask([b"upsert %d %d\n" % (_number(key), _number(value))])

    def __delitem__(self, key):
        if self._ask([b"remove %d\n" % _number(key)]) != [b"true"]:
            raise KeyError(key)

    def update(self, pairs=(), /, **_none):
        """Stores many pairs, by one commit for each thousand or more."""
        if _none:
            raise TypeError("keys are ints")
        items = pairs.items() if isinstance(pairs, Mapping) else pairs
        self._ask([b"upsert %d %d\n" % (_number(key), _number(value)) for key, value in items])

    def clear(self):
        """Removes all pairs."""
        self._ask([b"clear\n"])

    def __iter__(self):
        return (key for key, _ in self._listed(b"iter\n"))

    def __reversed__(self):
        return (key for key, _ in self._listed(b"back\n"))

    def items(self):
        """A list of the pairs, in the order of their keys."""
        return self._listed(b"iter\n")

    def values(self):
        """A list of the values, in the order of their keys."""
        return [value for _, value in self._listed(b"iter\n")]

    def irange(self, minimum=None, maximum=None, inclusive=(True, True)):
        """The keys from one to another."""
        return (key for key, _ in self.irange_items(minimum, maximum, inclusive))

    def irange_items(self, minimum=None, maximum=None, inclusive=(True, True)):
        """A list of the pairs from one key to another."""
        return self._listed(b"range %s %s\n" % _bounds(minimum, maximum, inclusive))

    def remove_range(self, minimum=None, maximum=None, inclusive=(True, True)):
        """Removes the pairs from one key to another, by one record of at most 19 bytes."""
        self._ask([b"remove_range %s %s\n" % _bounds(minimum, maximum, inclusive)])

    def at_or_below(self, key):
        """The pair with a key, or else that with the largest smaller key, or ``None``."""
        return self._near(key, (b"exact", b"smaller", b"between"), 0)

    def at_or_above(self, key):
        """The pair with a key, or else that with the smallest larger key, or ``None``."""
        return self._near(key, (b"exact", b"larger", b"between"), -1)

    def _near(self, key, names, place):
        name, *found = self._ask([b"locate %d\n" % _number(key)])[0].split(b" ")
        return _pair(found[place]) if name in names else None

    def _listed(self, line):
        (answer,) = self._ask([line])
        return [_pair(word) for word in answer.split(b" ")] if answer else []


def _pair(word):
    key, value = word.split(b"=")
    return int(key), int(value)


def _is_number(number):
    return isinstance(number, int) and 0 <= number <= _LARGEST


def _number(number):
    if not isinstance(number, int):
        raise TypeError(f"{number!r} is no int")
    if not 0 <= number <= _LARGEST:
        raise OverflowError(f"{number} is not between 0 and 2**64 - 1")
    return number


def _bounds(minimum, maximum, inclusive):
    words = [b"-" if number is None else (b"[%d" if includes else b"(%d") % _number(number) for number, includes in zip((minimum, maximum), inclusive)]
    return words[0], words[1]
