"""The mapping beside a dict, and beside sortedcontainers.SortedDict where it is installed."""
import array
import ast
import collections.abc
import copy
import gc
import os
import pickle
import random
import sys
import threading

import tree_index
from tree_index import TreeIndex

try:
    from sortedcontainers import SortedDict
except ImportError:
    SortedDict = None


def refused(kind, call, *given):
    """Whether a call raises an exception of this type."""
    try:
        call(*given)
    except kind:
        return True
    return False


def number(chance, keys):
    return chance.randrange(keys) - keys // 3


def word(chance, keys):
    return bytes(chance.choice((0, 100, 255)) for _ in range(chance.randrange(keys)))


def name(chance, keys):
    return "".join(chance.choice("\0a\u00e9\ud800\uffff\U0001f600") for _ in range(chance.randrange(keys)))


def compare(kind, key_of, keys, calls):
    chance = random.Random(keys)
    index, plain = TreeIndex(), SortedDict() if SortedDict else {}
    for call in range(calls):
        key, other, value = key_of(chance, keys), key_of(chance, keys), object()
        which = chance.randrange(15)
        if which < 3:
            index[key] = plain[key] = value
        elif which == 3:
            assert index.setdefault(key, value) is plain.setdefault(key, value)
        elif which < 6:
            assert index.pop(key, None) is plain.pop(key, None)
        elif which < 8:
            assert (index.get(key), key in index, len(index)) == (plain.get(key), key in plain, len(plain))
        elif which == 8 and plain:
            place = chance.choice([0, -1])
            item = sorted(plain.items())[place]
            assert index.peekitem(place) == item
            assert index.popitem(place) == item and plain.pop(item[0]) is item[1]
        elif which == 9:
            above, below = [k for k in plain if k >= key], [k for k in plain if k <= key]
            assert index.at_or_above(key) == ((min(above), plain[min(above)]) if above else None)
            assert index.at_or_below(key) == ((max(below), plain[max(below)]) if below else None)
        elif which < 12:
            ends, turned = (chance.random() < 0.5, chance.random() < 0.5), chance.random() < 0.5
            low, high = chance.choice([None, key]), chance.choice([None, other])
            want = [k for k in sorted(plain) if (low is None or k > low or (ends[0] and k == low)) and (high is None or k < high or (ends[1] and k == high))]
            assert list(index.irange(low, high, ends, turned)) == (want[::-1] if turned else want)
        elif which == 12 and chance.random() < 0.05:
            gone = [(k, plain.pop(k)) for k in sorted(plain) if key <= k <= other]
            assert index.pop_range(key, other) == gone
        elif which == 13 and type(key) is not int:
            begin = [k for k in sorted(plain) if k.startswith(key)]
            assert list(index.iprefix(key)) == begin and list(index.iprefix(key, reverse=True)) == begin[::-1]
            assert list(index.iprefix_items(key)) == [(k, plain[k]) for k in begin]
            if chance.random() < 0.05:
                assert index.pop_prefix(key) == [(k, plain.pop(k)) for k in begin]
        elif call % 97 == 0:
            assert (index.bisect_left(key), index.bisect_right(key)) == (sum(k < key for k in plain), sum(k <= key for k in plain))
        elif call % 997 == 0:
            assert index == plain and index.copy() == plain and list(index) == sorted(plain)
    assert list(index.items()) == sorted(plain.items()) and list(index.values()) == [plain[k] for k in sorted(plain)]
    assert list(reversed(index.items())) == sorted(plain.items())[::-1] and list(reversed(index)) == sorted(plain)[::-1]
    print(f"Python, {kind}: {calls} calls, all answers as {type(plain).__name__}'s, {len(plain)} pairs at the end")


def test_numbers():
    for keys in (20, 500):
        compare(f"ints, {keys} of them", number, keys, 20_000)


def test_bytes():
    for keys in (4, 9):
        compare(f"bytes, fewer than {keys}", word, keys, 20_000)


def test_strings():
    for keys in (4, 7):
        compare(f"strs, shorter than {keys}", name, keys, 20_000)
    assert TreeIndex(b=2, a=1) == TreeIndex({"a": 1}, b=2) == {"a": 1, "b": 2}


def test_long_keys():
    index = TreeIndex((bytes([65 + n]) * (3000 * n + 1), n) for n in range(20))
    assert [len(key) for key in index] == [3000 * n + 1 for n in range(20)]
    assert [len(key) for key in reversed(index)] == [3000 * n + 1 for n in reversed(range(20))]
    assert index.peekitem() == (b"T" * 57001, 19) and index.peekitem(2) == (b"C" * 6001, 2)


def test_many_keys():
    for key_of in (lambda n: n - 50, lambda n: b"%04d" % n, lambda n: f"{n:04}\u00e9"):
        index = TreeIndex((key_of(n), n) for n in range(0, 300, 3))
        for count in (0, 1, 63, 64, 65, 300):
            assert index.get_many([key_of(n) for n in range(count)]) == [None if n % 3 else n for n in range(count)]
            assert index.get_many((key_of(n) for n in range(count)), -1) == [-1 if n % 3 else n for n in range(count)]
        assert refused(TypeError, index.get_many, [1, b"x", "x"]) and refused(TypeError, index.get_many, 5)
    index = TreeIndex({-1: "a", 5: "b", 2**63 - 1: "c"})
    for kind in "ql":
        assert index.get_many(array.array(kind, [5, -1, 2, 2**63 - 1] * 40)) == ["b", "a", None, "c"] * 40
    assert index.get_many(array.array("Q", [2**64 - 1, 5, 2**63 - 1]), 0) == [0, "b", "c"]
    assert index.get_many(array.array("h", [5, -1])) == ["b", "a"] and index.get_many(memoryview(array.array("q", [5, 0, -1]))[::2]) == ["b", "a"]
    assert index.get_many([2**70, 5, -(2**70)]) == [None, "b", None]
    assert TreeIndex().get_many([1, 2]) == [None, None] and TreeIndex().get_many(array.array("q", [1])) == [None]
    assert refused(TypeError, TreeIndex({b"x": 1}).get_many, array.array("q", [1]))


def test_arrays():
    chance = random.Random(7)
    for count in (0, 1, 63, 64, 65, 3000):
        index = TreeIndex((n * 3 - count, n * n) for n in range(count))
        for _ in range(40):
            low, high = (chance.choice([None, chance.randrange(-count - 2, 2 * count + 2), 2**70, -(2**70)]) for _ in range(2))
            ends = (chance.random() < 0.5, chance.random() < 0.5)
            items = list(index.irange_items(low, high, ends))
            keys, values = index.items_arrays(low, high, ends)
            assert list(zip(keys, values)) == items and keys.typecode == values.typecode == "q"
            assert index.keys_array(low, high, ends) == keys and index.values_array(low, high, ends, "d") == array.array("d", values)
    ends = TreeIndex({-(2**63): -(2**63), 2**63 - 1: 2**63 - 1, 0: True})
    assert ends.items_arrays() == (array.array("q", [-(2**63), 0, 2**63 - 1]), array.array("q", [-(2**63), 1, 2**63 - 1]))
    mixed = TreeIndex({1: 2.5, 2: 3, 3: -1})
    assert mixed.values_array(typecode="d") == array.array("d", [2.5, 3, -1]) and mixed.values_array(2) == array.array("q", [3, -1])
    assert refused(TypeError, mixed.values_array) and refused(ValueError, mixed.items_arrays, None, None, (True, True), "i")
    assert refused(OverflowError, TreeIndex({1: 2**63}).values_array) and refused(TypeError, TreeIndex({1: "x"}).items_arrays)
    words = TreeIndex({b"x": 1})
    assert refused(TypeError, words.keys_array) and array.array("q", words.values()) == array.array("q", [1])
    assert mixed.keys_array() == array.array("q", [1, 2, 3]) and TreeIndex({1: "x"}).keys_array(0, 5) == array.array("q", [1])


def test_prefixes():
    index = TreeIndex((word, n) for n, word in enumerate([b"", b"a", b"ab", b"b", b"\xff", b"\xff\xff", b"\xff\xff\x01"]))
    assert list(index.iprefix(b"a")) == [b"a", b"ab"] and list(index.iprefix(b"\xff\xff")) == [b"\xff\xff", b"\xff\xff\x01"]
    assert list(index.iprefix(b"")) == list(index) and list(index.iprefix(b"c")) == []
    assert index.pop_prefix(b"\xff") == [(b"\xff", 4), (b"\xff\xff", 5), (b"\xff\xff\x01", 6)]
    assert list(index) == [b"", b"a", b"ab", b"b"] and index.pop_prefix(b"abc") == []
    walk = index.iprefix(b"a")
    next(walk)
    index.pop_prefix(b"b")
    assert refused(RuntimeError, next, walk)
    assert refused(TypeError, index.iprefix, 1) and refused(TypeError, index.pop_prefix, "a") and refused(TypeError, TreeIndex({1: 1}).iprefix, b"a")
    assert list(TreeIndex().iprefix(b"a")) == [] and TreeIndex().pop_prefix("a") == []
    names = TreeIndex((name, 0) for name in ("", "\u00e9", "\u00e9a", "\u00ea", "\U0010ffff", "\U0010ffff!"))
    assert list(names.iprefix("\u00e9")) == ["\u00e9", "\u00e9a"] and list(names.iprefix("\U0010ffff")) == ["\U0010ffff", "\U0010ffff!"]
    assert refused(TypeError, names.iprefix, b"a") and names.pop_prefix("\u00e9") == [("\u00e9", 0), ("\u00e9a", 0)]


def test_places():
    for key_of in (lambda n: n * 3 - 100, lambda n: b"%04d" % n):
        for count in (0, 1, 10, 200):
            index, plain = TreeIndex((key_of(n), n) for n in range(count)), [key_of(n) for n in range(count)]
            chance = random.Random(count)
            place = lambda: chance.choice([None, chance.randrange(-count - 3, count + 4)])
            for _ in range(300):
                part = slice(place(), place(), chance.choice([None, 1, -1, 2, -3, count + 1]))
                assert index.keys()[part] == plain[part] and index.values()[part] == list(range(count))[part]
                assert index.items()[part] == list(index.items())[part]
            for at in range(-count, count):
                assert index.keys()[at] == plain[at] and index.items()[at] == index.peekitem(at)
            assert refused(IndexError, index.keys().__getitem__, count) and refused(IndexError, index.items().__getitem__, -count - 1)
            assert refused(TypeError, index.values().__getitem__, "x") and refused(TypeError, index.__getitem__, slice(1, 2))


def test_is_a_mapping():
    index = TreeIndex({2: "b", 1: "a"})
    assert isinstance(index, collections.abc.MutableMapping)
    assert repr(index) == "TreeIndex({1: 'a', 2: 'b'})"
    assert index | {3: "c"} == {1: "a", 2: "b", 3: "c"}
    index.update([(0, "z")])
    assert index == {0: "z", 1: "a", 2: "b"} and index != {0: "z"}
    assert 0 in index.keys() and "a" in index.values() and (2, "b") in index.items()
    index.clear()
    assert not index and list(index) == [] and refused(KeyError, index.popitem) and refused(IndexError, index.peekitem)
    index[b"now of bytes"] = 1
    assert list(index) == [b"now of bytes"]


def test_stubs_name_what_is_there():
    with open(os.path.splitext(tree_index.__file__)[0] + ".pyi", encoding="utf-8") as stubs:
        classes = [it for it in ast.parse(stubs.read()).body if isinstance(it, ast.ClassDef)]
    told = {it.name: {item.name for item in it.body if isinstance(item, ast.FunctionDef)} for it in classes}
    assert all(name in dir(getattr(tree_index, kind)) for kind, names in told.items() for name in names)
    own = {name for name in dir(TreeIndex) if not name.startswith("_")}
    assert own - set(dir(collections.abc.MutableMapping)) <= told["TreeIndex"]
    assert os.path.exists(os.path.join(os.path.dirname(tree_index.__file__), "py.typed"))


def test_keys_that_do_not_fit():
    index = TreeIndex({1: 1})
    assert refused(TypeError, index.__setitem__, b"x", 1) and refused(TypeError, index.__setitem__, "x", 1)
    assert refused(TypeError, index.__getitem__, b"x") and refused(TypeError, index.get, 1.5)
    assert refused(OverflowError, index.__setitem__, 2**63, 1) and refused(KeyError, index.__getitem__, 2**70)
    assert 2**70 not in index and index.get(-(2**80), 5) == 5 and refused(KeyError, index.__delitem__, 7)
    names = TreeIndex({"x": 1})
    assert all(refused(TypeError, call, key) for key in (b"x", 1) for call in (names.__getitem__, names.setdefault, names.at_or_above, names.pop))
    index[2**63 - 1], index[-(2**63)] = "most", "least"
    assert list(index) == [-(2**63), 1, 2**63 - 1]
    assert list(index.irange(-(2**70), 2**70)) == list(index) and list(index.irange(2**70)) == [] and list(index.irange(None, -(2**70))) == []
    assert index.at_or_below(2**70) == (2**63 - 1, "most") and index.at_or_above(2**70) is None


def test_keys_are_plain():
    class Name(bytes):
        pass

    class Title(str):
        pass

    numbers, names, titles = TreeIndex({True: "yes"}), TreeIndex({Name(b"x"): 1}), TreeIndex({Title("x"): 1})
    assert [type(key) for key in (*numbers, *names, *titles)] == [int, bytes, str]
    assert numbers[1] == "yes" and names[b"x"] == 1 and titles["x"] == 1


def test_a_walk_meets_a_write():
    for change in (lambda i: i.__setitem__(5, 0), lambda i: i.pop(1), lambda i: i.clear(), lambda i: i.pop_range(1)):
        index = TreeIndex({1: 1, 2: 2})
        walk = iter(index)
        next(walk)
        change(index)
        assert refused(RuntimeError, next, walk)
    index = TreeIndex({1: 1})
    assert list(index) == [1]


def test_a_frozen_index_takes_no_write():
    for keys in (range(300), [b"%03d" % key for key in range(300)], []):
        index = TreeIndex((key, key) for key in keys)
        before = list(index.items())
        key = keys[7] if keys else 7
        index.freeze()
        index.freeze()
        assert index.is_frozen and list(index.items()) == before
        writes = (
            lambda: index.__setitem__(key, 1),
            lambda: index.__delitem__(key),
            lambda: index.setdefault(key, 1),
            lambda: index.pop(key, None),
            lambda: index.pop_range(),
            lambda: index.update({key: 1}),
            index.clear,
        )
        assert all(refused(TypeError, write) for write in writes)
        assert not keys or refused(TypeError, index.popitem)
        assert not isinstance(key, bytes) or refused(TypeError, index.pop_prefix, b"0")
        assert list(index.items()) == before and list(reversed(index)) == [it for it, _ in reversed(before)]
        copied = index.copy()
        copied[key] = None
        assert not copied.is_frozen and list(index.items()) == before
        index.thaw()
        index.thaw()
        index[key] = None
        assert index[key] is None and not index.is_frozen


def test_threads_read_a_frozen_index():
    index = TreeIndex((key, str(key)) for key in range(5000))
    index.freeze()
    found = []

    def read(seed):
        chance = random.Random(seed)
        found.append(all(index[key] == str(key) and index.at_or_above(key)[0] == key for key in (chance.randrange(5000) for _ in range(3000))))

    threads = [threading.Thread(target=read, args=(seed,)) for seed in range(4)]
    for thread in threads:
        thread.start()
    for thread in threads:
        thread.join()
    assert found == [True] * 4


def test_pickles_and_copies():
    index = TreeIndex({n * 7 % 101: [n] for n in range(101)})
    for protocol in range(2, pickle.HIGHEST_PROTOCOL + 1):
        assert pickle.loads(pickle.dumps(index, protocol)) == index
    shallow, deep = copy.copy(index), copy.deepcopy(index)
    assert shallow[3] is index[3] and deep[3] is not index[3] and deep == index
    del shallow[3]
    assert 3 in index


class Counted:
    alive = 0

    def __init__(self):
        Counted.alive += 1

    def __del__(self):
        Counted.alive -= 1


# pytest keeps what an assert compares until the assert ends.
def test_references_are_counted():
    for key_of in (lambda n: n, lambda n: b"%06d" % n):
        index = TreeIndex((key_of(n), Counted()) for n in range(1000))
        value = index[key_of(500)]
        base = sys.getrefcount(value)
        assert Counted.alive == 1000
        index[key_of(500)] = value
        index.setdefault(key_of(500), None)
        assert sys.getrefcount(value) == base and index.get(key_of(500)) is value
        index[key_of(500)] = Counted()
        assert Counted.alive == 1001 and sys.getrefcount(value) == base - 1
        del value
        assert Counted.alive == 1000
        gone = len(index.pop_range(key_of(100), key_of(199)))
        assert gone == 100 and Counted.alive == 900
        for n in range(50):
            del index[key_of(n)]
            index.pop(key_of(n + 50))
        assert Counted.alive == 800
        items = list(index.items())
        other = index.copy()
        index.clear()
        assert Counted.alive == 800
        del items
        assert Counted.alive == 800 and len(other) == 800
        del other
        assert Counted.alive == 0


def test_references_of_many_keys_and_of_prefixes():
    numbers, words = TreeIndex((n, Counted()) for n in range(200)), TreeIndex((b"%03d" % n, Counted()) for n in range(200))
    for index, keys in ((numbers, [150, 7, 150]), (numbers, array.array("q", [150, 7, 150])), (words, [b"150", b"007", b"150"])):
        value = index[keys[0] if index is words else 150]
        base = sys.getrefcount(value)
        told = index.get_many(keys)
        assert told[0] is value
        assert sys.getrefcount(value) == base + 2
        del told
        assert sys.getrefcount(value) == base
    del value, index
    assert Counted.alive == 400
    gone = len(words.pop_prefix(b"1"))
    assert gone == 100 and Counted.alive == 300
    del numbers, words
    assert Counted.alive == 0


def test_a_cycle_is_collected():
    index = TreeIndex({1: Counted()})
    index[2] = index
    del index
    gc.collect()
    assert Counted.alive == 0


def test_a_destructor_may_write():
    class Writes:
        def __init__(self, index, key):
            self.index, self.key = index, key

        def __del__(self):
            self.index[self.key] = "last words"

    index = TreeIndex()
    for key in range(10):
        index[key] = Writes(index, key + 100)
    index.clear()
    assert list(index) == list(range(100, 110))
    index[0] = Writes(index, 1)
    index[0] = "new"
    assert index[1] == "last words"
