"""Runs the cases of a kind, one after another, and keeps what differed as files."""
from __future__ import annotations

import os
import shutil
import sys
import tempfile
import time
import traceback
from collections import Counter
from dataclasses import dataclass, field
from typing import List, Optional

from trials.kind import Case, Kind



@dataclass(frozen=True)
class Plan:
    """How long a kind is tried, from which seed, with which program, and where differences are kept."""

    seed: int
    minutes: float
    count: Optional[int]
    program: str
    kept: str
    most: int = 5  # differences, after which a kind isn't tried on

    def is_done(self, counted: int, seconds: float) -> bool:
        """Returns whether as much was counted as is asked for, or the time is over."""
        return seconds >= 60 * self.minutes if self.count is None else counted >= self.count


@dataclass
class Outcome:
    """How a kind was tried: how much, in which time, what came up, and the folder of each difference."""

    kind: Kind
    seed: int
    cases: int = 0
    count: int = 0
    seconds: float = 0.0
    covered: Counter[str] = field(default_factory=Counter)
    differences: List[str] = field(default_factory=list)
    skipped: str = ""

    def uncovered(self) -> List[str]:
        """Returns what has to come up, and didn't."""
        return sorted(it for it in self.kind.wanted if not self.covered[it])

    def failed(self) -> bool:
        """Returns whether something differed, or enough was tried and something didn't come up."""
        is_enough = 0 < self.kind.enough <= self.count
        return bool(self.differences) or (is_enough and bool(self.uncovered()))


def difference_of(kind: Kind, case: Case) -> str:
    """Runs a case, and returns what differed. A fault of the case itself is a difference, too."""
    try:
        return kind.case(case)
    except Exception:  # pylint: disable=broad-except
        return traceback.format_exc()


def keep(kind: Kind, case: Case, why: str, kept: str) -> str:
    """Keeps the files of a case that differed, with the command that repeats it, and returns their folder."""
    folder = os.path.join(kept, f"{kind.name}-{case.seed}")
    shutil.rmtree(folder, ignore_errors=True)
    os.makedirs(kept, exist_ok=True)
    shutil.copytree(case.folder, folder, symlinks=True)
    for name, text in (
        ("difference", why),
        ("repeat", f"bin/trials {kind.name} --seed {case.seed} --count 1 --program {case.program}\n"),
    ):
        with open(os.path.join(folder, name), "w", encoding="utf-8", errors="backslashreplace") as it:
            it.write(text)
    return folder


def show(kind: Kind, outcome: Outcome) -> None:
    """Shows on a terminal how far a kind is."""
    if sys.stderr.isatty():
        said = f"{kind.name}: {outcome.count:,} {kind.unit}, {outcome.cases:,} cases, {outcome.seconds:.0f} s"
        sys.stderr.write(f"\r\033[K{said}, {len(outcome.differences)} differed")
        sys.stderr.flush()


def one(kind: Kind, plan: Plan, outcome: Outcome) -> None:
    """Runs the next case of a kind."""
    with tempfile.TemporaryDirectory(prefix="trials-") as folder:
        case = Case(plan.seed + outcome.cases, plan.program, folder)
        why = difference_of(kind, case)
        if why:
            outcome.differences.append(keep(kind, case, why, plan.kept))
    outcome.cases += 1
    outcome.count += max(1, case.count)
    outcome.covered.update(case.covered)


def tried(kind: Kind, plan: Plan) -> Outcome:
    """Tries a kind as the plan says."""
    outcome = Outcome(kind, plan.seed, skipped=kind.missing())
    begun = shown = time.monotonic()
    while not outcome.skipped and len(outcome.differences) < plan.most:
        one(kind, plan, outcome)
        now = time.monotonic()
        outcome.seconds = now - begun
        if now - shown > 0.2:
            shown = now
            show(kind, outcome)
        if plan.is_done(outcome.count, outcome.seconds):
            break
    if sys.stderr.isatty():
        sys.stderr.write("\r\033[K")
    return outcome
