"""Shows tables and JSON."""
from __future__ import annotations

import json
import re
from typing import List, Sequence

CONTROLS = re.compile("[\x00-\x09\x0b-\x1f\x7f-\x9f\u2028\u2029\ud800-\udfff]")

CONTROLS_IN_JSON = re.compile("[\x7f-\x9f\u2028\u2029\ud800-\udfff]")  # (it escapes others)


def plain(said: str) -> str:
    """Returns a line without characters by which a terminal would do something."""
    return CONTROLS.sub("\ufffd", said)


def say(line: str = "") -> None:
    """Prints a line."""
    print(plain(line))


def table(rows: Sequence[Sequence[str]], right: Sequence[int] = ()) -> List[str]:
    """Returns rows as lines with columns below one another; those of the numbers in `right` stand at the right."""
    widths = [max(len(row[i]) for row in rows) for i in range(len(rows[0]))] if rows else []
    lines = []
    for row in rows:
        cells = [it.rjust(w) if i in right else it.ljust(w) for i, (it, w) in enumerate(zip(row, widths))]
        lines.append("  ".join(cells).rstrip())
    return lines


def print_lines(lines: Sequence[str], indent: str = "") -> None:
    """Prints lines."""
    for line in lines:
        say(indent + line if line else "")


def print_json(value: object) -> None:
    """Prints a value as JSON. Tokens are to be texts in it: many readers of JSON lose digits of such numbers."""
    print(CONTROLS_IN_JSON.sub("\ufffd", json.dumps(value, indent=2, ensure_ascii=False)))
