"""What a run of the program did to a file and to standard output, in order, as strace tells."""
from __future__ import annotations

import re
import shutil
import subprocess
from dataclasses import dataclass
from typing import Dict, List, Sequence, Tuple, Union

from trials.kind import PATIENCE, Case, Ended

CALL = re.compile(r"(?:\d+ )?(\w+)\((.*)\) += (-?\d+)")
OPENED = re.compile(r'AT_FDCWD, "((?:\\x[0-9a-f]{2})*)"')
BYTES = re.compile(r'"((?:\\x[0-9a-f]{2})*)"')
TRACED = "openat,read,write,fsync,fdatasync,lseek,ftruncate,close,rename"


@dataclass(frozen=True)
class Write:
    """Bytes that were written to the file, from a place on."""

    place: int
    data: bytes


@dataclass(frozen=True)
class Sync:
    """The file was synced."""


@dataclass(frozen=True)
class Printed:
    """Bytes that went to standard output."""

    data: bytes


Act = Union[Write, Sync, Printed]


def missing() -> str:
    """Returns why nothing can be traced here, "" if it can."""
    if not shutil.which("strace"):
        return "strace isn't installed"
    ended = subprocess.run(["strace", "-o", "/dev/null", "true"], stderr=subprocess.DEVNULL, check=False)
    return "" if ended.returncode == 0 else "strace may not trace here"


def traced(case: Case, words: Sequence[str], lines: bytes, name: str) -> Tuple[Ended, List[Act]]:
    """Runs the program under strace, and returns how it ended and what it did to the file of this name."""
    options = ["-xx", "-s", "10000000", "-e", f"trace={TRACED}", "-o", case.path("trace")]
    done = subprocess.run(
        ["strace", *options, case.program, *words],
        cwd=case.folder,
        input=lines,
        stdout=subprocess.PIPE,
        timeout=PATIENCE,
        check=False,
    )
    with open(case.path("trace"), encoding="ascii") as it:
        return Ended(done.returncode, done.stdout), acts_of(it.read().splitlines(), name)


def acts_of(trace: Sequence[str], name: str) -> List[Act]:
    """Returns what calls did to a file and to standard output."""
    found: List[Act] = []
    files: Dict[int, int] = {}  # the descriptors of the file, with their places
    for line in trace:
        call = CALL.match(line)
        if not call or int(call[3]) < 0:
            continue
        kind, words, result = call[1], call[2], int(call[3])
        if kind == "openat":
            opened = OPENED.match(words)
            if opened and bytes_of(opened[1]) == name.encode():
                files[result] = 0
            continue
        first = re.match(r"\d+", words)
        descriptor = int(first[0]) if first else -1
        if kind == "write" and descriptor == 1:
            found.append(Printed(written(words)[:result]))
        elif descriptor in files:
            found += act_on(kind, descriptor, written(words), result, files)
    return found


def act_on(kind: str, descriptor: int, data: bytes, result: int, files: Dict[int, int]) -> List[Act]:
    """Returns what a call on the file did, and moves the descriptor's place."""
    place = files[descriptor]
    if kind == "close":
        del files[descriptor]
    elif kind == "lseek":
        files[descriptor] = result
    elif kind == "read":
        files[descriptor] = place + result
    elif kind == "write":
        files[descriptor] = place + result
        return [Write(place, data[:result])]
    elif kind in ("fsync", "fdatasync"):
        return [Sync()]
    elif kind == "ftruncate":
        raise ValueError("the file was cut: the trial doesn't know what a loss of power leaves of that")
    return []


def written(words: str) -> bytes:
    """Returns the bytes among the words of a call."""
    found = BYTES.search(words)
    return bytes_of(found[1]) if found else b""


def bytes_of(text: str) -> bytes:
    """Returns the bytes of a text of strace, each written as a backslash, an x and two digits."""
    return bytes.fromhex(text.replace("\\x", ""))
