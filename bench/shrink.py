"""Shrinks a script that shows a difference to a short one that still does.

Candidates are tried many at a time, since a build may stand before each set of them.
"""
import re
from itertools import combinations

SETS = 20
LINES = 60_000
PAIRS = 40
SINGLES = 300
DRAWS = 60
SHARES = (0.02, 0.05, 0.1, 0.2, 0.3, 0.5, 0.7, 0.8, 0.9)


def shortest(scripts, shows, random):
    """The shortest list of lines found that `shows` says yes of, or None if it never does.

    `shows` takes a list of scripts and says of each whether it shows a difference. The search begins with some scripts, and ends
    where no line can be left out, nor a pair of lines of a very short script.
    """
    found = None
    tried = list(scripts)
    for script in sorted(scripts, key=len)[:3]:
        tried += candidates(script, random)
    for _ in range(SETS):
        shorter = first_shown(tried, shows)
        if shorter is None:
            return found
        found = shorter
        tried = candidates(found, random)
    return found


def first_shown(scripts, shows):
    """The shortest of some scripts that shows a difference, or None. Short ones are tried before long ones."""
    waiting = sorted(scripts, key=len)
    while waiting:
        count, lines = 0, 0
        while count < len(waiting) and (count == 0 or lines + len(waiting[count]) <= LINES):
            lines += len(waiting[count])
            count += 1
        few, waiting = waiting[:count], waiting[count:]
        for script, shown in zip(few, shows(few)):
            if shown:
                return script
    return None


def candidates(script, random):
    """Scripts with some of the lines: without a stretch of them, and with a share of them that is drawn by chance."""
    length = len(script)
    made = []
    for share in SHARES:
        draws = LINES // len(SHARES) // max(1, int(share * length))
        made += [[line for line in script if random.random() < share] for _ in range(max(3, min(DRAWS, draws)))]
    for size in (length // 2, length // 4, length // 8, length // 16):
        if size > 1:
            made += [script[:start] + script[start + size :] for start in range(0, length, size)]
    if length <= SINGLES:
        made += [script[:place] + script[place + 1 :] for place in range(length)]
    if length <= PAIRS:
        for one, other in combinations(range(length), 2):
            made.append(script[:one] + script[one + 1 : other] + script[other + 1 :])
    return [it for it in made if 0 < len(it) < length]


def with_small_numbers(script):
    """The script with each number replaced by its place among all of its numbers."""
    pattern = rb"(?<![0-9a-zA-Z])(?:0|[1-9][0-9]*)(?![0-9a-zA-Z])"
    numbers = sorted({int(number) for line in script for number in re.findall(pattern, line)})
    places = {number: place for place, number in enumerate(numbers, 1)}
    return [re.sub(pattern, lambda found: b"%d" % places[int(found[0])], line) for line in script]
