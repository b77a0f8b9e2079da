"""What the stubs of the package say. mypy reads this file, and nothing runs it: each line that is ignored must be an error."""
from array import array
from typing import Iterator, List, Optional, Tuple

from tree_index import TreeIndex

prices: TreeIndex[int, str] = TreeIndex({101: "five", 104: "one"})
sizes = TreeIndex([(b"a", 1.5), (b"b", 2.5)])

value: str = prices[101]
default: Optional[str] = prices.get(102)
size: float = sizes.setdefault(b"c", 3.5)
near: Optional[Tuple[int, str]] = prices.at_or_above(100)
last: Tuple[bytes, float] = sizes.peekitem()
walk: Iterator[int] = prices.irange(101, reverse=True)
gone: List[Tuple[bytes, float]] = sizes.pop_range(maximum=b"b")
begin: Iterator[bytes] = sizes.iprefix(b"a")
begun: List[Tuple[bytes, float]] = sizes.pop_prefix(b"a")
both: TreeIndex[int, str] = prices | {107: "three"}
place: int = prices.keys()[0]
names: TreeIndex[str, int] = TreeIndex({"one": 1})
named: Iterator[str] = names.iprefix("o")
before: int = names.bisect_left("p")
places: List[Tuple[int, str]] = prices.items()[-2:]
counts: TreeIndex[int, int] = TreeIndex({1: 2})
both_arrays: Tuple["array[int]", "array[int]"] = counts.items_arrays(maximum=5)
reals: "array[float]" = TreeIndex({1: 2.5}).values_array(typecode="d")
sums: Tuple["array[int]", "array[float]"] = counts.items_arrays(typecode="d")
numbers: "array[int]" = prices.keys_array(100)
backwards: Iterator[str] = reversed(prices.values())

prices[101:104]  # type: ignore[index]
prices[b"x"]  # type: ignore[index]
prices.iprefix(b"x")  # type: ignore[misc]
sizes.keys_array()  # type: ignore[misc]
prices.values_array()  # type: ignore[misc]
counts.values_array(typecode="i")  # type: ignore[call-overload]
sizes[b"x"] = "large"  # type: ignore[assignment]
weights: TreeIndex[float, int]  # type: ignore[type-var]
