"""Copies of the program with a bug, by the edits in `planted`. Each line `old:` is in the file exactly once, and becomes `new:`."""
import pathlib
import shutil
from typing import List

from trial.processes import HERE

EDITS = HERE / "planted"


def names() -> List[str]:
    return sorted(path.stem for path in EDITS.glob("*.edit"))


def copy_with(name: str, to: pathlib.Path) -> pathlib.Path:
    """Makes a copy of the program with this bug, and returns its folder."""
    to.mkdir()
    for path in [*HERE.glob("*.py"), HERE / "replica"]:
        shutil.copy(path, to)
    file, old = to, ""
    for line in (EDITS / f"{name}.edit").read_text().splitlines():
        word, _, text = line.partition(": ")
        if word == "file":
            file = to / text
        elif word == "old":
            old = text
        elif word == "new":
            whole = file.read_text()
            if whole.count(f"{old}\n") != 1:
                raise SystemExit(f"try: {name}: {file.name} has {whole.count(old)} lines {old!r}")
            file.write_text(whole.replace(f"{old}\n", f"{text}\n".replace("\\n", "\n")))
    return to
