"""Times a TreeIndex beside sortedcontainers.SortedDict: the least of several rounds, in nanoseconds a call or pair.

Writes a line for each work and number of pairs: the map, the work, the pairs, the index's time and the map's.
"""
import gc
import random
import subprocess
import sys
import time
from collections import deque
from itertools import islice

from sortedcontainers import SortedDict

from tree_index import TreeIndex


def resident():
    with open("/proc/self/statm", encoding="ascii") as sizes:
        return int(sizes.read().split()[1]) * 4096


def least(rounds, run):
    best = float("inf")
    for _ in range(rounds):
        gc.collect()
        gc.disable()
        best = min(best, run())
        gc.enable()
    return best


def timed(calls, work, *given):
    at = time.process_time_ns()
    work(*given)
    return (time.process_time_ns() - at) / calls


def insert_all(made, keys):
    for key in keys:
        made[key] = key
    return made


def look_up_all(made, keys):
    for key in keys:
        made[key]


def nearest_above(made, keys):
    if isinstance(made, TreeIndex):
        for key in keys:
            made.at_or_above(key)
    else:
        for key in keys:
            next(made.irange(key), None)


def walk_100(made, keys):
    for key in keys:
        deque(islice(made.irange(key), 100), maxlen=0)


def walk_all(made):
    deque(made.items(), maxlen=0)


def remove_all(made, keys):
    for key in keys:
        del made[key]


def cut(made, low, high):
    if isinstance(made, TreeIndex):
        made.pop_range(low, high)
    else:
        for key in list(made.irange(low, high)):
            del made[key]


def numbers(n):
    chance = random.Random(20261127)
    return [chance.randrange(2**62) for _ in range(n)]


def grown_by(kind, n):
    """How many bytes a pair a process grows by that fills a map and does nothing else."""
    words = [sys.executable, __file__, kind.__name__, str(n)]
    return float(subprocess.run(words, check=True, capture_output=True, text=True).stdout)


def show_growth(name, n):
    keys = numbers(n)
    before = resident()
    made = insert_all({kind.__name__: kind for kind in KINDS}[name](), keys)
    print((resident() - before) / len(made))


def row(name, n, ours, theirs):
    print(f"SortedDict,{name},{n},{ours:.1f},{theirs:.1f}", flush=True)


def measure(n, rounds):
    keys = numbers(n)
    order = random.Random(n).sample(keys, n)
    few = order[: min(n, 20_000)]

    def both(name, calls, work):
        row(name, n, *(least(rounds, lambda: work(kind)) for kind in KINDS))

    both("insert ascending", n, lambda kind: timed(n, insert_all, kind(), range(n)))
    both("insert random", n, lambda kind: timed(n, insert_all, kind(), keys))
    made = {kind: insert_all(kind(), keys) for kind in KINDS}
    both("upsert", n, lambda kind: timed(n, insert_all, made[kind], order))
    both("look up", n, lambda kind: timed(n, look_up_all, made[kind], order))
    both("nearest above", n, lambda kind: timed(len(few), nearest_above, made[kind], few))
    both("walk of all", n, lambda kind: timed(n, walk_all, made[kind]))
    both("walks of 100", n, lambda kind: timed(len(few) * 100, walk_100, made[kind], few))
    both("cut of the middle half", n, lambda kind: timed(n // 2, cut, made[kind].copy(), 2**60, 3 * 2**60))
    both("remove", n, lambda kind: timed(n, remove_all, made[kind].copy(), order))
    if n >= 100_000:
        row("bytes a pair", n, *(grown_by(kind, n) for kind in KINDS))


KINDS = (TreeIndex, SortedDict)
if len(sys.argv) > 1:
    show_growth(sys.argv[1], int(sys.argv[2]))
else:
    for n, rounds in ((1_000, 30), (100_000, 5), (1_000_000, 2)):
        measure(n, rounds)
