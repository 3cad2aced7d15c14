"""A script for `apply` that is tried on a copy of a log: its steps, each with its wave and the remarks before it."""
from __future__ import annotations

import re
from dataclasses import dataclass, field, replace
from typing import Dict, List, Optional

from tools.apply import check_forms
from tools.committer import Committer
from tools.errors import Refused
from tools.log import epochs_by_id, last_epoch
from tools.names import Names
from tools.program import Session
from tools.script import HEAD, read_script
from tools.text import read_lines

WAVE = re.compile(r"# Wave (\d+)")


@dataclass
class PlannedStep:
    """A step of a plan that was accepted on the copy."""

    line: int
    epoch: int
    wave: Optional[int]
    remarks: List[str] = field(default_factory=list)


def try_plan(script: str, begin: int, copy: str, names: Names, session: Session) -> List[PlannedStep]:
    """Commits the commands of a script from a line on, which all have to be accepted or be in the log already."""
    read = read_script(script)
    steps = [it for it in read.steps if it.line >= begin]
    if not steps:
        raise Refused(f"{read.name}: no command is there from line {begin} on")
    check_forms(read, steps, names)
    committer = Committer(session, names, last_epoch(copy), epochs_by_id(copy))
    remarks = remarks_of(script)
    found = []
    for done in [committer.commit(read, it) for it in steps]:
        if not done.again:
            found.append(replace(remarks[done.step.line], epoch=done.epoch))
    return found


def remarks_of(script: str) -> Dict[int, PlannedStep]:
    """Returns for each line its wave, and the remarks between it and the command before it."""
    found: Dict[int, PlannedStep] = {}
    wave: Optional[int] = None
    remarks: List[str] = []
    for number, line in enumerate(read_lines(script), 1):
        said = line.strip()
        begins = WAVE.fullmatch(said)
        if begins:
            wave, remarks = int(begins[1]), []
        elif said.startswith("#") and not HEAD.fullmatch(said):
            remarks.append(said.lstrip("# "))
        elif said and not said.startswith("#"):
            found[number], remarks = PlannedStep(number, 0, wave, remarks), []
    return found
