"""The record of the last runs that passed: of each part the day, a sum of the text that was tried, and what came of it."""
import datetime
import hashlib
import pathlib
import re
from typing import Dict, Iterator, List, Tuple

from trial.processes import HERE

RECORD = HERE / "tried.txt"
PACKAGE = HERE.parent.parent / "python/src/tree_index"
USED = ("__init__.py", "_core.c")
PARTS = ("trials", "planted bugs", "figures")
HEAD = re.compile(r"(.*): run on (.*), on the text (\w{16}), with the storetool \w{16}\n")


def files() -> Iterator[pathlib.Path]:
    """The program, its trials and the package that it uses."""
    for path in sorted(HERE.rglob("*")):
        if path.is_file() and path != RECORD and path.suffix != ".md" and "__pycache__" not in path.parts:
            yield path
    yield from (PACKAGE / name for name in USED)


def text_sum() -> str:
    found = hashlib.sha256()
    for path in files():
        found.update(f"{path.relative_to(HERE.parent.parent)}\n".encode() + path.read_bytes())
    return found.hexdigest()[:16]


def parts() -> Dict[str, str]:
    """The text of each part of the record."""
    found = {}
    for text in RECORD.read_text().split("\n\n") if RECORD.exists() else []:
        head = HEAD.match(f"{text}\n")
        if head:
            found[head[1]] = text.rstrip("\n")
    return found


def write(part: str, text: str, lines: List[str], tool: str) -> None:
    """Replaces a part of the record: on which text it was run, and with which built storetool, by sums."""
    program = hashlib.sha256(pathlib.Path(tool).read_bytes()).hexdigest()[:16]
    day = datetime.date.today().strftime("%-d %B %Y")
    found = {**parts(), part: "\n".join([f"{part}: run on {day}, on the text {text}, with the storetool {program}", *lines])}
    RECORD.write_text("\n\n".join(found[it] for it in PARTS if it in found) + "\n")


def told() -> Iterator[Tuple[str, bool]]:
    """What the record says of each part, and whether that is of the present text."""
    found, now = parts(), text_sum()
    for part in PARTS:
        head = HEAD.match(f"{found.get(part, '')}\n")
        if head is None:
            yield f"bindings/programs/replicas: {part} never run", False
        else:
            is_new = head[3] == now
            yield f"bindings/programs/replicas: {part} run on {head[2]}, on the {'present text' if is_new else f'text {head[3]}, which has changed'}", is_new
