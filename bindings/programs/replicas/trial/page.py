"""Writes the figures into the pages that show them."""
import datetime
import os
import pathlib
import re

from trial.figures import Figures
from trial.processes import HERE

PAGE = HERE / "README.md"
OTHER = HERE.parents[2] / "docs/BINDINGS.md"


def table(found: Figures, load: float) -> str:
    """The figures as the replicas' page has them."""
    day = datetime.date.today().strftime("%-d %B %Y")
    rows = [f"| {who} | {row.rate:,.0f} | {row.median:,.0f} ms | {row.slow:,.0f} ms | {row.group:,.0f} |" for who, row in found.rows]
    return "\n".join(
        [
            f"Run on {day}: three nodes of etcd and three replicas on one machine with {os.cpu_count()} processors, on its disk. The load of the"
            f" machine was {load:.1f} before. Each client has a line in flight.",
            "",
            "| Clients | Writes a second | Median | 99 of 100 within | Lines an entry |",
            "|---|---|---|---|---|",
            *rows,
            "",
            f"So grouping is the whole speed: {found.faster():.0f} times as many writes of 64 clients. The leader of etcd's nodes was killed"
            f" {len(found.gaps)} times, and the longest write took {min(found.gaps):.1f} to {max(found.gaps):.1f} s. A replica was killed and started"
            f" again {len(found.again)} times, and answered after {min(found.again):.1f} to {max(found.again):.1f} s.",
        ]
    )


def sentence(found: Figures) -> str:
    """The figures as the page of the bindings has them."""
    alone, grouped, single = found.rows[0][1], found.rows[-2][1], found.rows[-1][1]
    return (
        f"On one machine one client made {alone.rate:,.0f} writes a second (median {alone.median:,.0f} ms, 99 of 100 within {alone.slow:,.0f}), and 64 made"
        f" {grouped.rate:,.0f} by {grouped.group:,.0f} an entry ({grouped.median:,.0f}, {grouped.slow:,.0f}), or {single.rate:,.0f} by one"
        f" ({single.median:,.0f}, {single.slow:,.0f})."
    )


def put(page: pathlib.Path, name: str, text: str) -> None:
    """Replaces what a page has between two marks."""
    whole, marks = page.read_text(), (f"<!-- {name} -->\n", f"\n<!-- end of {name} -->")
    found = re.search(re.escape(marks[0]) + ".*?" + re.escape(marks[1]), whole, re.S)
    if found is None:
        raise SystemExit(f"try: {page.name} has no marks {marks[0].strip()}")
    page.write_text(whole[: found.start()] + marks[0] + text + marks[1] + whole[found.end() :])


def write(found: Figures, load: float) -> None:
    put(PAGE, "figures", table(found, load))
    put(OTHER, "replicas", sentence(found))
