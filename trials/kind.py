"""What a kind of trial is, and what each of its cases is given.

To add a kind, add a module to trials/kinds/ that has a `KIND`:

    KIND = Kind("kills", "runs that are killed by signal 9 at a random moment, and started again", "kills", one_case)

`one_case` gets a `Case` and returns what differed, "" if nothing. It draws from `case.random` alone, so that its seed
repeats it; keeps its files in `case.folder`, which is the current folder of `case.run`; adds to `case.count` what it
tried, here kills; and counts by name what came up (`case.cover`). A kind may say what has to come up (`wanted`) once
`enough` was counted, and why it can't run on this machine (`missing`). bin/trials finds the module by itself. Then add
a row to the table of kinds in docs/trials.md.
"""
from __future__ import annotations

import os
import random
import subprocess
from collections import Counter
from dataclasses import dataclass, field
from typing import Any, Callable, Dict, FrozenSet, Sequence

PATIENCE = 120  # seconds that a run of the program may take


@dataclass(frozen=True)
class Ended:
    """A run that has ended: its status, minus the number of a signal that ended it, and what it printed."""

    status: int
    out: bytes


@dataclass
class Case:
    """One case of a kind."""

    seed: int
    program: str
    folder: str
    covered: Counter[str] = field(default_factory=Counter)
    count: int = 0
    random: random.Random = field(init=False)

    def __post_init__(self) -> None:
        self.random = random.Random(self.seed)

    def run(self, words: Sequence[str], script: bytes = b"", **more: Any) -> Ended:
        """Runs the program to its end, in the folder of the case. `more` goes to subprocess.run."""
        given: Dict[str, Any] = {"stdout": subprocess.PIPE, "stderr": subprocess.DEVNULL, "timeout": PATIENCE}
        if "stdin" not in more:
            given["input"] = script
        given.update(more)
        ended = subprocess.run([self.program, *words], cwd=self.folder, check=False, **given)
        return Ended(ended.returncode, ended.stdout or b"")

    def path(self, name: str) -> str:
        """Returns the path of a file of the case."""
        return os.path.join(self.folder, name)

    def write(self, name: str, data: bytes) -> None:
        """Writes a file of the case."""
        with open(self.path(name), "wb") as it:
            it.write(data)

    def read(self, name: str) -> bytes:
        """Returns the bytes of a file of the case."""
        with open(self.path(name), "rb") as it:
            return it.read()

    def cover(self, *names: str) -> None:
        """Counts what came up."""
        self.covered.update(names)


def nothing() -> str:
    """Returns why a kind can't run here: it can."""
    return ""


@dataclass(frozen=True)
class Kind:
    """A kind of trial: its name, one line on what it does, what a case counts, and what runs one."""

    name: str
    help: str
    unit: str
    case: Callable[[Case], str]
    wanted: FrozenSet[str] = frozenset()
    enough: int = 0
    missing: Callable[[], str] = nothing
