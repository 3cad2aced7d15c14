"""Whether a commit was accepted: only `OK e` says so, and e is the epoch after the last one."""
from __future__ import annotations

import re
from typing import Sequence

from tools.errors import Unclear
from tools.text import shown

OK = re.compile(r"OK ([1-9][0-9]{0,18})")


def accepted(answer: Sequence[str], epoch: int, again: bool = False) -> int:
    """Returns the epoch of an accepted commit: the one that is due, or, of a line sent again, one up to it."""
    found = OK.fullmatch(answer[0])
    came = int(found[1]) if found else 0
    if came == epoch or (again and 0 < came <= epoch):
        return came
    raise Unclear(f"tcm answers `{shown(answer[0])}`, where OK {epoch} is due; look by bin/cluster status")
