"""Whether the calls of one key have an order that their times allow and that a single pair would answer so."""
from collections import defaultdict
from typing import Dict, FrozenSet, List, NamedTuple, Optional, Sequence, Tuple

from trial.clients import NEVER, Call

Value = Optional[int]
SINGLE = ("insert", "upsert", "remove", "remove_if", "peek", "contains")
MOST = 2_000_000  # steps of one search


class Step(NamedTuple):
    """What a call means for one key. A call without an answer may have been made at any later time, or never."""

    start: float
    end: float
    word: str
    value: Value
    other: Value
    answer: Optional[str]


def covers(line: str, key: int) -> bool:
    """Whether a removal of a range, or of all, removes this key."""
    word, *bounds = line.split(" ")
    if word == "clear":
        return True
    low, high = bounds
    above = low == "-" or key > int(low[1:]) or (low[0] == "[" and key == int(low[1:]))
    return above and (high == "-" or key < int(high[1:]) or (high[0] == "[" and key == int(high[1:])))


def steps_of(calls: Sequence[Call]) -> Dict[int, List[Step]]:
    """The linear calls of each key that has one."""
    found: Dict[int, List[Step]] = defaultdict(list)
    wide: List[Call] = []
    for call in calls:
        word, *rest = call.line.split(" ")
        if not call.is_write and (call.is_local or call.answer is None):
            continue
        if call.answer == "unavailable":
            continue
        answer = None if call.answer == "unknown" else call.answer
        end = NEVER if answer is None else call.end
        if word in SINGLE:
            number = int(rest[1]) if len(rest) > 1 else None
            found[int(rest[0])].append(Step(call.start, end, word, number, number, answer))
        elif word in ("remove_range", "clear"):
            wide.append(call)
    for call in wide:
        answer = None if call.answer == "unknown" else call.answer
        for key in [it for it in found if covers(call.line, it)]:
            found[key].append(Step(call.start, NEVER if answer is None else call.end, "cut", None, None, answer))
    return found


def made(step: Step, state: Value) -> Tuple[str, Value]:
    """The answer of a call, and the value after it."""
    if step.word == "insert":
        return ("ok", step.value) if state is None else ("duplicate", state)
    if step.word == "upsert":
        return "ok", step.value
    if step.word == "cut":
        return "ok", None
    if step.word == "peek":
        return "none" if state is None else str(state), state
    if step.word == "contains":
        return "true" if state is not None else "false", state
    if state is None or (step.word == "remove_if" and state != step.other):
        return "false", state
    return "true", None


def has_order(steps: List[Step]) -> bool:
    """Whether there is an order. A search that remembers which sets of calls, with which value, led nowhere."""
    steps = sorted(steps)
    seen: "set[Tuple[int, FrozenSet[int], Value]]" = set()
    # The calls before `first` are all in the order, and those in `ahead` too.
    stack: List[Tuple[int, FrozenSet[int], Value]] = [(0, frozenset(), None)]
    while stack:
        first, ahead, state = stack.pop()
        while first in ahead:
            ahead, first = ahead - {first}, first + 1
        if all(step.answer is None for at, step in enumerate(steps[first:], first) if at not in ahead):
            return True
        if (first, ahead, state) in seen:
            continue
        seen.add((first, ahead, state))
        if len(seen) > MOST:
            raise RuntimeError("a history is too long to be searched")
        stack += next_of(steps, first, ahead, state)
    return False


def next_of(steps: List[Step], first: int, ahead: FrozenSet[int], state: Value) -> List[Tuple[int, FrozenSet[int], Value]]:
    """What may come next: calls that began before each of the others ended."""
    found, until = [], NEVER
    for at in range(first, len(steps)):
        step = steps[at]
        if step.start > until:
            break
        if at in ahead:
            continue
        until = min(until, step.end)
        answer, after = made(step, state)
        if step.answer is None or step.answer == answer:
            found.append((first, ahead | {at}, after))
    return found


def without_order(calls: Sequence[Call]) -> Tuple[int, int, List[int]]:
    """How many keys have a history, how long the longest is, and the keys whose history has no order."""
    histories = steps_of(calls)
    longest = max(map(len, histories.values()), default=0)
    return len(histories), longest, [key for key, steps in histories.items() if not has_order(steps)]
