"""A sorted mapping over an ordered index whose every call is proved.

``TreeIndex`` has the methods of ``sortedcontainers.SortedDict`` that an ordered index serves well. Its keys are ints
between -2**63 and 2**63 - 1, bytes or strs, as the first key decides. Its values are any objects.

>>> prices = TreeIndex({101: "a", 104: "b", 102: "c"})
>>> list(prices.irange(102))
[102, 104]
>>> prices.pop_range(maximum=103)
[(101, 'a'), (102, 'c')]
>>> prices
TreeIndex({104: 'b'})
"""
from array import array
from collections.abc import ItemsView, KeysView, MutableMapping, ValuesView
from itertools import islice

from ._core import Index

__all__ = ["TreeIndex"]

_KEYS, _VALUES, _ITEMS = range(3)
# The formats of a buffer whose numbers may have 64 bits.
_SIGNED, _UNSIGNED = ("q", "l", "n"), ("Q", "L", "N")


class _Places:
    """What is at a place of a view, or at the places of a slice. It walks there from the nearer end, since an index counts no places."""

    __slots__ = ()

    def __getitem__(self, place):
        if not isinstance(place, slice):
            at = range(len(self))[place]
            return self[at : at + 1][0]
        places = range(len(self))[place]
        if not places:
            return []
        low, high = sorted((places[0], places[-1]))
        before, behind = low, len(self) - 1 - high
        walk, skipped = (iter(self), before) if before <= behind else (reversed(self), behind)
        found = list(islice(walk, skipped, skipped + high - low + 1, abs(places.step)))
        return found if (before <= behind) == (places.step > 0) else found[::-1]


class _Keys(_Places, KeysView):
    __slots__ = ()

    def __reversed__(self):
        return reversed(self._mapping)


class _Values(_Places, ValuesView):
    __slots__ = ()

    def __iter__(self):
        return self._mapping._walk(_VALUES, False)

    def __reversed__(self):
        return self._mapping._walk(_VALUES, True)


class _Items(_Places, ItemsView):
    __slots__ = ()

    def __iter__(self):
        return self._mapping._walk(_ITEMS, False)

    def __reversed__(self):
        return self._mapping._walk(_ITEMS, True)


class TreeIndex(Index, MutableMapping):
    """A mapping in the order of its keys."""

    __slots__ = ()

    def __init__(self, *args, **kwargs):
        if args or kwargs:
            self.update(*args, **kwargs)

    def keys(self):
        """The keys, as a view that is walked in ascending order, or in descending order by reversed()."""
        return _Keys(self)

    def values(self):
        """The values in the order of their keys."""
        return _Values(self)

    def items(self):
        """The items in the order of their keys."""
        return _Items(self)

    def irange_items(self, minimum=None, maximum=None, inclusive=(True, True), reverse=False):
        """The items from one key to another, as irange() gives the keys."""
        return self.irange(minimum, maximum, inclusive, reverse, _ITEMS)

    def get_many(self, keys, default=None):
        """The value of each key, or the default if it is absent, as a list in the order of the keys.

        Of a buffer of 64-bit numbers, such as an ``array`` of type ``q``, no object is made for a key.
        """
        if not isinstance(keys, (bytes, bytearray, list, tuple)):
            try:
                view = memoryview(keys)
            except TypeError:
                return self._get_each(keys, default)
            if view.ndim == 1 and view.itemsize == 8 and view.format in _SIGNED + _UNSIGNED:
                return self._get_packed(view.tobytes(), default, view.format in _SIGNED)
        return self._get_each(keys, default)

    def keys_array(self, minimum=None, maximum=None, inclusive=(True, True)):
        """The int keys from one to another, as an ``array`` of type ``q``. No object is made for a key.

        ``numpy.asarray`` takes it without a copy.
        """
        return array("q", self._packed(minimum, maximum, inclusive, None)[0])

    def values_array(self, minimum=None, maximum=None, inclusive=(True, True), typecode="q"):
        """The values from one int key to another, as an ``array`` of type ``q`` of ints, or of type ``d`` of ints and floats."""
        return self.items_arrays(minimum, maximum, inclusive, typecode)[1]

    def items_arrays(self, minimum=None, maximum=None, inclusive=(True, True), typecode="q"):
        """What keys_array() and values_array() give, by one walk."""
        keys, values = self._packed(minimum, maximum, inclusive, typecode)
        return array("q", keys), array(typecode, values)

    def bisect_left(self, key):
        """How many keys are smaller. Walks over them, since an index counts no places."""
        return sum(1 for _ in self.irange(None, key, (True, False)))

    def bisect_right(self, key):
        """How many keys aren't larger. Walks over them, since an index counts no places."""
        return sum(1 for _ in self.irange(None, key))

    def iprefix_items(self, prefix, reverse=False):
        """The items whose keys begin with a prefix, as iprefix() gives the keys."""
        return self.iprefix(prefix, reverse, _ITEMS)

    def copy(self):
        """A copy with the same values."""
        made = type(self)()
        made._copy_from(self)
        return made

    __copy__ = copy

    def __reduce__(self):
        return type(self), (list(self.items()),)

    def __repr__(self):
        return f"{type(self).__name__}({{{', '.join(f'{key!r}: {value!r}' for key, value in self.items())}}})"

    def __or__(self, other):
        made = self.copy()
        made.update(other)
        return made

    def __ior__(self, other):
        self.update(other)
        return self
