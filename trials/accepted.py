"""Scripts whose commits are all accepted, what an undisturbed run makes of them, and what has to hold after a fault."""
from __future__ import annotations

import os
import random
from dataclasses import dataclass
from typing import List, Sequence, Tuple

from trials.kind import Case, Ended

LOG, DISK, NAME = "c.log", "c.disk", "c"
STEPS = ("start", "mid", "finish", "cancel")
KINDS = ("join", "move", "leave", "replace")
HEAD = 18  # bytes before the name of a record: gate, kind, and two lengths of eight bytes


@dataclass(frozen=True)
class Script:
    """Lines, and what an undisturbed run prints and keeps."""

    lines: bytes
    answers: bytes
    log: bytes


def words_for(on_disk: bool) -> List[str]:
    """Returns the words of a run over the log, in a file or on a disk."""
    return [*(["on", DISK] if on_disk else []), "commit", LOG, NAME]


def drawn_script(case: Case, proposals: int) -> Script:
    """Returns a script of the proposals that are accepted, with some queries between them."""
    proposed = [f"commit {i} {it}\n" for i, it in enumerate(proposed_commands(case.random, proposals), 1)]
    answers = case.run(["commit"], "".join(proposed).encode()).out.decode().splitlines()
    kept = []
    for line, answer in zip(proposed, answers):
        if answer.startswith("OK "):
            kept.append(line)
            if case.random.random() < 0.1:
                kept.append(f"nodes @{answer.split()[1]}\n")
    lines = "".join(kept).encode()
    ended = case.run(["commit", "undisturbed.log", NAME], lines)
    return Script(lines, ended.out, case.read("undisturbed.log"))


def proposed_commands(draw: random.Random, count: int) -> List[str]:
    """Returns commands that may be accepted: nodes, keyspaces, and movements whose steps are mixed."""
    found, nodes = [f"keyspace k topology dc1:{draw.randint(1, 3)}"], 0
    moving: List[Tuple[str, int]] = []
    while len(found) < count:
        turn = draw.random()
        if nodes < 4 or turn < 0.1:
            nodes += 1
            found.append(f"register n{nodes} dc{draw.choice((1, 1, 1, 2))} r{draw.randint(1, 3)}")
            if nodes <= 4 or draw.random() < 0.4:
                found.append(f"unsafe-join {nodes} {draw.randint(-(2**63), 2**63 - 1)}")
        elif turn < 0.15:
            found.append(f"keyspace k{draw.randint(1, 4)} simple {draw.randint(1, 3)}")
        elif turn < 0.2:
            found.append(f"drop-keyspace k{draw.randint(1, 4)}")
        elif turn < 0.45 or not moving:
            found.append(prepare(draw, nodes, moving))
        else:
            kind, node = draw.choice(moving)
            step = draw.choice(STEPS)
            found.append(f"cancel {node}" if step == "cancel" else f"{step}-{kind} {node}")
    return found


def prepare(draw: random.Random, nodes: int, moving: List[Tuple[str, int]]) -> str:
    """Returns a command that prepares a movement, which is added to those that move."""
    kind, node = draw.choice(KINDS), draw.randint(1, nodes)
    moving.append((kind, node))
    more = {"join": f" {draw.randint(-999, 999)}", "move": f" {draw.randint(-999, 999)}", "leave": ""}
    return f"prepare-{kind} {node}" + more.get(kind, f" {draw.randint(1, nodes)}")


def kept_log(case: Case, on_disk: bool) -> bytes:
    """Returns the log as it is kept now."""
    path = case.path(DISK if on_disk else LOG)
    if not os.path.exists(path):
        return b""
    with open(path, "rb") as it:
        data = it.read()
    return file_of(data, LOG.encode()) if on_disk else data


def file_of(image: bytes, wanted: bytes) -> bytes:
    """Returns the bytes of a file on a disk, by the form of records in docs/operators.md."""
    at, found = 0, b""
    while at + HEAD <= len(image) and image[at] == 1 and image[at + 1] <= 1:
        size, length = (int.from_bytes(image[at + i : at + i + 8], "big") for i in (2, 10))
        name, data = image[at + HEAD :][:size], image[at + HEAD + size :][:length]
        if at + HEAD + size + length > len(image):
            break
        if name == wanted:
            found = found + data if image[at + 1] == 0 else data
        at += HEAD + size + length
    return found


def lost_or_changed(script: Script, printed: bytes, log: bytes) -> str:
    """Returns what is wrong after a fault: what was printed and kept has to begin as without it, with all answered."""
    if not script.answers.startswith(printed):
        return f"what was printed isn't the beginning of an undisturbed run's answers: {printed[-200:]!r}"
    whole = log[: log.rfind(b"\n") + 1]
    if not script.log.startswith(whole) or not (script.log + b"\n").startswith(log):
        return f"the log isn't the beginning of an undisturbed run's log: {log[-200:]!r}"
    entries = max(0, whole.count(b"\n") - 1)
    answered = sum(it.startswith(b"OK ") for it in printed[: printed.rfind(b"\n") + 1].split(b"\n"))
    return f"{answered} commits were answered, and the log has {entries} entries" if answered > entries else ""


def goes_on(case: Case, script: Script, on_disk: bool) -> str:
    """Returns what is wrong after the same lines were sent again: all has to be as after an undisturbed run."""
    ended = case.run(words_for(on_disk), script.lines)
    if ended != Ended(0, script.answers):
        return f"sent again, the lines end with status {ended.status} and print {ended.out[-200:]!r}"
    if kept_log(case, on_disk) != script.log:
        return "sent again, the lines leave another log than an undisturbed run"
    return ""


def first_of(findings: Sequence[str]) -> str:
    """Returns the first finding that says something."""
    return next((it for it in findings if it), "")
