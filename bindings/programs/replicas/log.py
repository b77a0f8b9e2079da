"""The log that etcd keeps: one key an entry, numbered without gaps from 0 on.

`registry/id` is the log's name, `registry/log/` and twenty digits an entry, and `registry/replicas/NAME` the number up to which
a replica has the log on its disk.
"""
import json
import os
from typing import Dict, Iterator, List, NamedTuple, Optional, Sequence, Tuple

from etcd import Etcd, Json, packed, unpacked

NAME = "registry/id"
ENTRIES = "registry/log/"
REPLICAS = "registry/replicas/"
PAGE = 256  # entries that are read at once
DIGITS = 20


class Trimmed(Exception):
    """The log begins after this entry."""


class Rewound(Exception):
    """The log ends before this entry: etcd lost it, or was set up from an older copy."""


class Entry(NamedTuple):
    """The writes that were appended together."""

    number: int
    revision: int
    ident: str
    lines: List[str]


def key_of(number: int) -> str:
    return packed(f"{ENTRIES}{number:0{DIGITS}}")


def behind(prefix: str) -> str:
    """The key that ends the range of those with a prefix."""
    return packed(prefix[:-1] + chr(ord(prefix[-1]) + 1))


def number_of(pair: Json) -> int:
    return int(unpacked(pair["key"])[-DIGITS:])


def entry_of(pair: Json) -> Entry:
    text = json.loads(unpacked(pair["value"]))
    return Entry(number_of(pair), int(pair["mod_revision"]), text["id"], text["records"])


def value_of(ident: str, lines: Sequence[str]) -> str:
    return packed(json.dumps({"id": ident, "records": lines}))


def from_entry(number: int, limit: int, keys_only: bool = False) -> Json:
    """A range from an entry to the log's end."""
    return {"key": key_of(number), "range_end": behind(ENTRIES), "limit": str(limit), "keys_only": keys_only}


class Log:
    """Reads and writes of the log. Reads are by quorum. Where no time is given, they wait for etcd without end."""

    def __init__(self, etcd: Etcd) -> None:
        self.etcd = etcd

    def name(self) -> Optional[str]:
        """The log's name, or None if there is no log."""
        found = self.etcd.steady("kv/range", {"key": packed(NAME)}).get("kvs")
        return unpacked(found[0]["value"]) if found else None

    def make(self) -> None:
        """Makes the log with an empty entry 0, if there is none."""
        absent = {"target": "CREATE", "key": packed(NAME), "result": "EQUAL", "create_revision": "0"}
        puts = {NAME: packed(os.urandom(8).hex()), f"{ENTRIES}{0:0{DIGITS}}": value_of("begin", [])}
        success = [{"request_put": {"key": packed(key), "value": value}} for key, value in puts.items()]
        self.etcd.steady("kv/txn", {"compare": [absent], "success": success})

    def append(self, number: int, ident: str, lines: Sequence[str]) -> Tuple[bool, List[Entry]]:
        """Appends an entry with this number, if there is none and there is the one before it.

        Returns whether it did, and the entries from this number on. Raises Lost, or Full. A call that is repeated with the same
        number is done at most once, however late the lost one arrives: even if the entry was trimmed by then, since the one
        before it was too.
        """
        key, value = key_of(number), value_of(ident, lines)
        compare = [
            {"target": "CREATE", "key": key, "result": "EQUAL", "create_revision": "0"},
            {"target": "CREATE", "key": key_of(number - 1), "result": "GREATER", "create_revision": "0"},
        ]
        put, others = {"request_put": {"key": key, "value": value}}, {"request_range": from_entry(number, PAGE)}
        answer = self.etcd.call("kv/txn", {"compare": compare, "success": [put], "failure": [others]})
        if answer.get("succeeded"):
            return True, [Entry(number, int(answer["header"]["revision"]), ident, list(lines))]
        return False, [entry_of(pair) for pair in answer["responses"][0]["response_range"].get("kvs", [])]

    def page(self, number: int, until: Optional[float] = None) -> Tuple[List[Entry], int]:
        """The entries behind this one, and etcd's revision. Raises Lost, Trimmed or Rewound."""
        answer = self.etcd.steady("kv/range", from_entry(number, PAGE + 1), until)
        found = answer.get("kvs", [])
        self.test_first(number, found, until)
        return [entry_of(pair) for pair in found[1:]], int(answer["header"]["revision"])

    def last(self, number: int, until: Optional[float] = None) -> int:
        """The number of the last entry, counted from this one. Raises Lost, Trimmed or Rewound."""
        answer = self.etcd.steady("kv/range", from_entry(number, 1, keys_only=True), until)
        self.test_first(number, answer.get("kvs", []), until)
        return number + int(answer["count"]) - 1

    def test_first(self, number: int, found: List[Json], until: Optional[float]) -> None:
        """Raises an error unless the first of the found entries is that of this number."""
        if found and number_of(found[0]) == number:
            return
        first = self.first(until)
        raise Trimmed if first is not None and first > number else Rewound

    def first(self, until: Optional[float] = None) -> Optional[int]:
        """The number of the first entry."""
        found = self.etcd.steady("kv/range", from_entry(0, 1, keys_only=True), until).get("kvs")
        return number_of(found[0]) if found else None

    def watch(self, revision: int) -> Iterator[List[Entry]]:
        """The entries from a revision on, as they come. It ends if it may have missed some."""
        create = {"key": key_of(0), "range_end": behind(ENTRIES), "start_revision": str(revision), "filters": ["NODELETE"], "fragment": True}
        for result in self.etcd.watch(create):
            yield [entry_of(event["kv"]) for event in result.get("events", [])]

    def register(self, name: str, number: int) -> None:
        """Notes how far a replica has the log on its disk."""
        self.etcd.steady("kv/put", {"key": packed(REPLICAS + name), "value": packed(str(number))})

    def registered(self, until: Optional[float] = None) -> Tuple[Dict[str, int], int]:
        """How far each replica has the log on its disk, and the revision at which that was so. Raises Lost."""
        answer = self.etcd.steady("kv/range", {"key": packed(REPLICAS), "range_end": behind(REPLICAS)}, until)
        names = {unpacked(pair["key"])[len(REPLICAS) :]: int(unpacked(pair["value"])) for pair in answer.get("kvs", [])}
        return names, int(answer["header"]["revision"])

    def forget(self, name: str, until: float) -> bool:
        """Takes a replica's number away, and returns whether there was one. Raises Lost."""
        answer = self.etcd.steady("kv/deleterange", {"key": packed(REPLICAS + name)}, until)
        return int(answer.get("deleted", "0")) > 0

    def trim(self, number: int, revision: int) -> bool:
        """Deletes the entries before this one, unless a replica was registered after this revision. Raises Lost or Full."""
        key, end = packed(REPLICAS), behind(REPLICAS)
        same = {"target": "MOD", "key": key, "range_end": end, "result": "LESS", "mod_revision": str(revision + 1)}
        delete = {"request_delete_range": {"key": key_of(0), "range_end": key_of(number)}}
        return bool(self.etcd.call("kv/txn", {"compare": [same], "success": [delete]}).get("succeeded"))

    def compact(self, revision: int) -> None:
        """Lets etcd drop what it keeps of before a revision. Raises Lost."""
        self.etcd.call("kv/compaction", {"revision": str(revision)})
