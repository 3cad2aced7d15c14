"""Rows of what was tried: trials/rows.csv keeps them, and docs/trials.md shows those of the released program."""
from __future__ import annotations

import csv
import datetime
import hashlib
import os
from typing import Dict, Iterable, List, Sequence

from trials.trial import Outcome

TOP = os.path.dirname(os.path.dirname(os.path.realpath(__file__)))
ROWS = os.path.join(TOP, "trials", "rows.csv")
PAGE = os.path.join(TOP, "docs", "trials.md")
RELEASE = os.path.join(TOP, "dist", "tcm")
HEAD = ("date", "program", "kind", "count", "unit", "seed", "minutes", "outcome")
SHOWN = ("date", "kind", "how many", "minutes", "seed", "outcome")

Row = Dict[str, str]


def name_of(program: str) -> str:
    """Returns the name of a program: the first 12 digits of its checksum."""
    with open(program, "rb") as it:
        return hashlib.sha256(it.read()).hexdigest()[:12]


def row_of(outcome: Outcome, program: str) -> Row:
    """Returns the row of what was tried."""
    said = f"{len(outcome.differences)} differed" if outcome.differences else "right"
    if missing := outcome.uncovered():
        said += f"; didn't come up: {', '.join(missing)}"
    values = (
        datetime.date.today().isoformat(),
        name_of(program),
        outcome.kind.name,
        str(outcome.count),
        outcome.kind.unit,
        str(outcome.seed),
        f"{outcome.seconds / 60:.1f}",
        said,
    )
    return dict(zip(HEAD, values))


def read_rows() -> List[Row]:
    """Returns the rows that are kept."""
    if not os.path.exists(ROWS):
        return []
    with open(ROWS, encoding="utf-8", newline="") as it:
        return list(csv.DictReader(it))


def write_rows(rows: Sequence[Row]) -> None:
    """Keeps rows."""
    with open(ROWS, "w", encoding="utf-8", newline="") as it:
        writer = csv.DictWriter(it, HEAD, lineterminator="\n")
        writer.writeheader()
        writer.writerows(rows)


def table(rows: Sequence[Row], program: str) -> List[str]:
    """Returns the lines of the table of a program's rows."""
    lines = [f"| {' | '.join(SHOWN)} |", "|" + "---|" * len(SHOWN)]
    for row in rows:
        if row["program"] == program:
            counted = f"{int(row['count']):,} {row['unit']}"
            cells = (row["date"], row["kind"], counted, row["minutes"], row["seed"], row["outcome"])
            lines.append(f"| {' | '.join(cells)} |")
    return lines


def with_table(page: str, lines: Sequence[str]) -> str:
    """Returns a page with this table in the place of the one that has its head."""
    old = page.split("\n")
    first = old.index(lines[0])
    last = first
    while last < len(old) and old[last].startswith("|"):
        last += 1
    return "\n".join([*old[:first], *lines, *old[last:]])


def add(outcomes: Sequence[Outcome], program: str) -> None:
    """Keeps a row for each kind that was tried, and shows them in the page."""
    rows = read_rows() + [row_of(it, program) for it in outcomes if not it.skipped]
    write_rows(rows)
    with open(PAGE, encoding="utf-8") as it:
        page = it.read()
    with open(PAGE, "w", encoding="utf-8") as it:
        it.write(with_table(page, table(rows, name_of(RELEASE))))


def faults_of_page(kinds: Iterable[str]) -> List[str]:
    """Returns what is wrong with the page: a kind that has no row, or other rows than those of the released program."""
    with open(PAGE, encoding="utf-8") as it:
        page = it.read()
    faults = [f"no row with the kind {it}" for it in kinds if f"\n| {it} |" not in page]
    if with_table(page, table(read_rows(), name_of(RELEASE))) != page:
        faults.append("the last table isn't that of trials/rows.csv: bin/trials --record makes it")
    return [f"docs/trials.md:1: {it}" for it in faults]
