"""What has to be so after a trial: of the log, and of the writes' answers."""
from collections import Counter, defaultdict
from typing import Dict, Iterable, List, NamedTuple, Optional, Sequence, Tuple

from trial.clients import NEVER, Call
from trial.model import Model


class Place(NamedTuple):
    """A line of the log, and what the model answers there."""

    number: int
    answer: str


class Record:
    """The lines of the whole log, replayed."""

    def __init__(self, entries: Sequence[Sequence[str]]) -> None:
        self.lines = [line for entry in entries for line in entry]
        self.number = len(entries) - 1
        self.places: Dict[str, List[Place]] = defaultdict(list)
        # For each key, after how many lines of the log it got which value.
        self.values: Dict[int, List[Tuple[int, Optional[int]]]] = defaultdict(lambda: [(0, None)])
        model = Model()
        for number, line in enumerate(self.lines):
            touched = keys_of(line, model)
            self.places[line].append(Place(number, model.write(line)))
            for key in touched:
                self.values[key].append((number + 1, model.values.get(key)))
        self.pairs = model.read("iter")


def keys_of(line: str, model: Model) -> List[int]:
    """The keys whose values a write may change."""
    word, *rest = line.split(" ")
    if word == "clear":
        return list(model.keys)
    if word == "remove_range":
        low, behind = model.between(*rest)
        return model.keys[low:behind]
    return [int(rest[0])]


def first(problems: Iterable[str], most: int = 3) -> List[str]:
    """Some of the problems, and how many there are."""
    found = list(problems)
    return found[:most] + ([f".. and {len(found) - most} more like it"] if len(found) > most else [])


def writes_in_the_log(record: Record, writes: Sequence[Call]) -> Iterable[str]:
    """Each line is in the log as often as it was answered, or at most so often more as it may have been made."""
    sure, maybe = Counter(), Counter()  # type: Counter[str], Counter[str]
    for call in writes:
        if call.answer in (None, "unknown"):
            maybe[call.line] += 1
        elif call.answer != "unavailable":
            sure[call.line] += 1
    for line in sorted({*sure, *maybe, *record.places, *(call.line for call in writes)}):
        times = len(record.places.get(line, ()))
        if not sure[line] <= times <= sure[line] + maybe[line]:
            yield f"{line!r} was acknowledged {sure[line]} times, {maybe[line]} more may have been made, and the log has it {times} times"


def answers_by_place(record: Record, writes: Sequence[Call]) -> Iterable[str]:
    """Each line's answers are among those of the model at its places."""
    told: "Dict[str, Counter[str]]" = defaultdict(Counter)
    for call in writes:
        if call.answer not in (None, "unknown", "unavailable"):
            told[call.line][str(call.answer)] += 1
    for line, answers in told.items():
        wanted = Counter(place.answer for place in record.places.get(line, ()))
        if answers - wanted:
            yield f"{line!r} was answered {dict(answers)}, and the model answers {dict(wanted)} at its places in the log"


def placed(record: Record, calls: Sequence[Call]) -> List[Tuple[int, Call]]:
    """The calls whose line is in the log once and was sent once, each with its place."""
    sent = Counter(call.line for call in calls)
    once = (call for call in calls if sent[call.line] == 1 and len(record.places.get(call.line, ())) == 1)
    return sorted(((record.places[call.line][0].number, call) for call in once), key=lambda it: it[0])


def order_of_writes(known: Sequence[Tuple[int, Call]]) -> Iterable[str]:
    """No write is in the log before one that was answered before it was sent."""
    soonest, last = NEVER, None
    for _, call in reversed(known):
        if soonest < call.start:
            yield f"{call} is in the log before {last}, which was answered before it was sent"
        if call.end < soonest:
            soonest, last = call.end, call
