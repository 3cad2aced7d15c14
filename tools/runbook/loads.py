"""The Load of nodes, from what `nodetool status` or `nodetool ring` prints."""
from __future__ import annotations

import re
from typing import Dict, Sequence

from tools.errors import Refused
from tools.names import canonical

UNITS = {"bytes": 1, "B": 1, "KiB": 2**10, "KB": 2**10, "MiB": 2**20, "MB": 2**20, "GiB": 2**30, "GB": 2**30}
UNITS.update({"TiB": 2**40, "TB": 2**40})
LOAD = re.compile(r"(\d+(?:[.,]\d+)?)\s(bytes|[KMGT]i?B|B)(?=\s|$)")


def read_loads(lines: Sequence[str], path: str) -> Dict[str, int]:
    """Returns the Load of each node in bytes, by its address."""
    found: Dict[str, int] = {}
    for line in lines:
        words = line.split()
        load = LOAD.search(line)
        if not load or len(words) < 4:
            continue
        address = words[1] if re.fullmatch(r"[UD?][NLJM?]", words[0]) else words[0]
        number = float(load[1].replace(",", "."))
        found.setdefault(canonical(address), int(number * UNITS[load[2]]))
    if not found:
        raise Refused(f"{path}: no line has the Load of a node, as nodetool status prints it")
    return found
