"""Runs the program and the reference machine side by side, over the same files."""
from __future__ import annotations

import os
from typing import Callable, Dict, Iterable, List, Sequence, Tuple

from trials.kind import Case, Ended
from trials.machine.commands import FORMS as COMMAND_FORMS
from trials.machine.runs import Run, Script, given, run_on
from trials.machine.session import FORMS, Session

Draws = Callable[[Session], Iterable[bytes]]
MOST_SHOWN = 300  # characters of a line that differed


def first_difference(wanted: bytes, came: bytes) -> str:
    """Returns the first line in which two outputs differ."""
    wants, comes = wanted.split(b"\n"), came.split(b"\n")
    at = next((i for i, (one, other) in enumerate(zip(wants, comes)) if one != other), min(len(wants), len(comes)))
    shown = [repr(it[at][:MOST_SHOWN]) if at < len(it) else "nothing" for it in (wants, comes)]
    return f"line {at + 1}: the machine has {shown[0]}, the program {shown[1]}"


class Both:
    """The files of a case, as the machine has them and as they are in its folder."""

    def __init__(self, case: Case):
        self.case = case
        self.files: Dict[bytes, bytes] = {}
        self.differences: List[str] = []
        self.lines: List[bytes] = []  # of the last script
        self.made = 0  # files

    def put(self, name: bytes, data: bytes) -> None:
        """Makes a file."""
        self.made += 1
        self.files[name] = data
        self.case.write(os.fsdecode(name), data)

    def remove(self, name: bytes) -> None:
        """Takes a file away."""
        if self.files.pop(name, None) is not None:
            os.remove(self.case.path(os.fsdecode(name)))

    def recorded(self, draws: Draws) -> Script:
        """Returns a script that keeps its lines."""

        def lines(session: Session) -> Iterable[bytes]:
            for line in draws(session):
                self.lines.append(line)
                yield line

        return lines

    def run(self, words: Sequence[bytes], draws: Draws = given(b"")) -> Run:
        """Runs both, and compares bytes, statuses and files."""
        self.lines = []
        wanted = run_on(self.files, words, self.recorded(draws))
        script = b"".join(it + b"\n" for it in self.lines)
        came = self.case.run([os.fsdecode(it) for it in words], script)
        self.compare(words, script, wanted, came)
        self.cover(words, wanted)
        return wanted

    def compare(self, words: Sequence[bytes], script: bytes, wanted: Run, came: Ended) -> None:
        """Notes what differs."""
        why = []
        if wanted.out != came.out:
            why.append(first_difference(wanted.out, came.out))
        if wanted.status != came.status:
            why.append(f"the machine ends with status {wanted.status}, the program with {came.status}")
        why += [f"the file {name!r}: {text}" for name, text in self.different_files()]
        if why:
            self.case.write("input", script)
            self.differences.append(f"{b' '.join(words)!r} with input: {'; '.join(why)}\n")

    def different_files(self) -> Iterable[Tuple[bytes, str]]:
        """Gives the files that are not as the machine has them."""
        there = {os.fsencode(it) for it in os.listdir(self.case.folder)} - {b"input"}
        for name in sorted(there | set(self.files)):
            if name not in there or name not in self.files:
                yield name, "absent" if name not in there else "there, and not for the machine"
            elif self.case.read(os.fsdecode(name)) != self.files[name]:
                yield name, first_difference(self.files[name], self.case.read(os.fsdecode(name)))

    def cover(self, words: Sequence[bytes], ended: Run) -> None:
        """Counts what came up in a run."""
        self.case.count += max(1, len(ended.answers))
        self.case.cover(f"status {ended.status}")
        command = next((it.decode("latin-1") for it in words if it in COMMANDS), "other words")
        if ended.status not in (0, 2):
            self.case.cover(f"{command}: {cause_of(ended.answers[0][0])}")
        elif command == "commit":
            for line, answer in zip(self.lines, ended.answers):
                self.case.cover(f"{word_of(line)} {said_in(answer[0])}")
        elif ended.status == 0:
            self.case.cover(f"{command}: printed")


COMMANDS = (b"commit", b"replay", b"snapshot", b"plan", b"cms", b"mend2", b"gen")


def word_of(line: bytes) -> str:
    """Returns the word that says what a line does: that of the command, in a commit."""
    words = line.decode("latin-1").split(" ")
    word = (words[2] if len(words) > 2 else "") if words[0] == "commit" else words[0]
    return word if word in FORMS or word in COMMAND_FORMS else "another line"


def said_in(answer: str) -> str:
    """Returns what kind of answer an answer is."""
    words = answer.split(" ")
    if words[0] == "REPLY":
        return f"REPLY {words[2]}"
    return words[1] if words[0] == "NO" else words[0]


def cause_of(line: str) -> str:
    """Returns why a run ended at a file: the cause, with the rule that is broken."""
    words = line.split(" ")
    if words[0] == "REFUSED":
        return " ".join(words[3:5]) if words[3] in ("LINE", "IMAGE") else words[3]
    return " ".join(words[:2]) if words[0] == "NO" else words[0]
