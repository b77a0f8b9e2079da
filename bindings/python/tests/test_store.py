"""A store beside a dict, closed and opened again. It needs a built storetool, which STORETOOL names."""
import importlib.util
import os
import pathlib
import random
import signal
import sys
import tempfile

SOURCE = pathlib.Path(__file__).resolve().parent.parent / "src" / "tree_index" / "store.py"


def module():
    """The module, without the extension of its package."""
    found = importlib.util.spec_from_file_location("store", SOURCE)
    made = importlib.util.module_from_spec(found)
    found.loader.exec_module(made)
    return made


store = module()
open_store, StoreError = store.open_store, store.StoreError


def raises(kind, call, *given):
    """The exception of this type that a call raises."""
    try:
        call(*given)
    except kind as error:
        return error
    raise AssertionError(f"no {kind.__name__}")


def example(path):
    with open_store(path) as pairs:
        pairs[101] = 5
        pairs.update({102: 7, 104: 1})
        del pairs[102]
        assert list(pairs.items()) == [(101, 5), (104, 1)]
    with open_store(path) as pairs:
        assert dict(pairs) == {101: 5, 104: 1} and len(pairs) == 2 and 101 in pairs and 102 not in pairs and "x" not in pairs
        assert pairs.at_or_below(103) == (101, 5) and pairs.at_or_above(103) == (104, 1) and pairs.at_or_above(105) is None
        assert pairs.at_or_below(100) is None and pairs.at_or_below(101) == (101, 5) and pairs.at_or_above(104) == (104, 1)
        assert list(reversed(pairs)) == [104, 101] and list(pairs.irange(102)) == [104] and pairs.irange_items(101, 104, (False, True)) == [(104, 1)]
        assert raises(KeyError, pairs.__getitem__, 7) and raises(KeyError, pairs.__delitem__, 7) and raises(TypeError, pairs.__setitem__, "a", 1)
        assert raises(OverflowError, pairs.__setitem__, -1, 1) and raises(OverflowError, pairs.__setitem__, 1, 2**64)
        assert pairs.get(7, 9) == 9 and pairs.pop(101) == 5 and pairs.setdefault(9, 3) == 3 and pairs.values() == [3, 1]
        pairs.remove_range(9, 104, (True, False))
        assert list(pairs) == [104]
        pairs.clear()
        assert not pairs and pairs.items() == []


def beside_a_dict(path, seed):
    chance, plain = random.Random(seed), {}
    for _ in range(4):
        with open_store(path, sync=chance.choice(("each", "group", "none")), two_syncs=chance.random() < 0.5) as pairs:
            assert list(pairs.items()) == sorted(plain.items())
            many = {chance.randrange(5000): chance.randrange(2**64) for _ in range(1200)}
            pairs.update(many)
            plain.update(many)
            for _ in range(60):
                key = chance.randrange(5000)
                assert pairs.get(key) == plain.get(key)
                if chance.random() < 0.5:
                    pairs[key] = plain[key] = chance.randrange(100)
                elif key in plain:
                    del pairs[key], plain[key]
            low = chance.randrange(5000)
            pairs.remove_range(low, low + 200)
            plain = {key: value for key, value in plain.items() if not low <= key <= low + 200}
            assert len(pairs) == len(plain)


def failures(path, folder):
    with open_store(path) as pairs:
        pairs[1] = 1
        error = raises(StoreError, open_store, path)
        assert error.status == 4 and "another process" in str(error)
        pairs._child.send_signal(signal.SIGKILL)
        pairs._child.wait()
        raises(StoreError, len, pairs)
        raises(ValueError, len, pairs)
    with open_store(path) as pairs:
        assert dict(pairs) == {1: 1}
    pairs.close()
    raises(ValueError, len, pairs)
    assert raises(StoreError, open_store, folder).status == 4
    other = os.path.join(folder, "text")
    with open(other, "w") as file:
        file.write("a text that is no store\n" * 10)
    assert raises(StoreError, open_store, other).status == 5
    assert raises(ValueError, lambda: open_store(path, sync="all"))


def main():
    if not os.environ.get("STORETOOL"):
        print("test_store.py: not tried, STORETOOL names no program")
        return
    with tempfile.TemporaryDirectory() as folder:
        example(os.path.join(folder, "a.db"))
        for seed in range(3):
            beside_a_dict(os.path.join(folder, f"{seed}.db"), seed)
        failures(os.path.join(folder, "c.db"), folder)
    print("test_store.py: ok")


if __name__ == "__main__":
    sys.exit(main())
