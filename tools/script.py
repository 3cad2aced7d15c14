"""Scripts for `apply`: commands with names of nodes, each with an id of its own, below the head of a plan if it is one."""
from __future__ import annotations

import hashlib
import re
from dataclasses import dataclass
from typing import Dict, Iterator, List, Optional, Tuple

from tools.errors import Refused
from tools.grammar import COMMANDS, is_number
from tools.names import Names
from tools.text import fault, name_of, read_lines, shown

HEAD = re.compile(r"# plan of the cluster (\S+) at epoch (0|[1-9][0-9]{0,18})")
WAVE = re.compile(r"# wave \d+", re.IGNORECASE)


def head_of(cluster: str, epoch: int) -> str:
    """Returns the line with which a plan of a log begins."""
    return f"# plan of the cluster {cluster} at epoch {epoch}"


@dataclass(frozen=True)
class Step:
    """A command of a script: its line, its id, its words, and whether it is the first start of a wave."""

    line: int
    id: int
    words: Tuple[str, ...]
    begins_wave: bool

    @property
    def said(self) -> str:
        """The command as the script has it."""
        return " ".join(self.words)

    @property
    def stage(self) -> str:
        """Which step of a movement this is, for example `mid`; empty if it is none."""
        stage, dash, _ = self.words[0].partition("-")
        return stage if dash and stage in ("start", "mid", "finish") else ""


@dataclass(frozen=True)
class Script:
    """The commands of a script; of a plan also the cluster and the epoch for which it was made."""

    name: str
    steps: List[Step]
    cluster: Optional[str]
    epoch: int

    def at(self, step: Step, why: str) -> Refused:
        """Returns what is wrong with a command."""
        return fault(self.name, step.line, why)


def read_script(path: str) -> Script:
    """Reads a script."""
    lines, name = read_lines(path), name_of(path)
    head = next((it for it in map(HEAD.fullmatch, lines[:2]) if it), None)
    steps = list(read_steps(lines, name, head[0] if head else ""))
    return Script(name, steps, head[1] if head else None, int(head[2]) if head else 0)


def read_steps(lines: List[str], name: str, head: str) -> Iterator[Step]:
    """Gives the commands of a script; empty lines and lines that begin with # are passed over."""
    seen: Dict[str, int] = {}
    is_new_wave = True
    for number, line in enumerate(lines, 1):
        said = line.strip().split()
        if not said or said[0].startswith("#"):
            is_new_wave = is_new_wave or bool(WAVE.match(line))
            continue
        given = int(said[1]) if len(said) > 2 and said[0] == "commit" and is_number(said[1], 2**64) else None
        words = tuple(said if given is None else said[2:])
        if words[0] not in COMMANDS:
            raise fault(name, number, f"`{shown(words[0], 40)}` is no command: {', '.join(COMMANDS)}")
        command = " ".join(words)
        seen[command] = seen.get(command, 0) + 1
        begins = is_new_wave and words[0].startswith("start-")
        yield Step(number, id_of(head, command, seen[command]) if given is None else given, words, begins)
        is_new_wave = not begins and (is_new_wave or words[0].startswith(("mid-", "finish-")))


def id_of(head: str, command: str, times: int) -> int:
    """Returns the id of a command that has none: the same whenever the script is applied, so that it acts once."""
    return int.from_bytes(hashlib.sha256(f"{head}\n{times}\n{command}".encode()).digest()[:8], "big")


def translate(said: Tuple[str, ...], names: Names) -> List[str]:
    """Returns the words of a command with the names that the log has for those of Cassandra."""
    head, rest = said[0], said[1:]
    if head == "register" and len(rest) == 3:
        return [head, *(names.choose(kind, it) for kind, it in zip(("node", "datacenter", "rack"), rest))]
    if head in ("keyspace", "drop-keyspace") and rest:
        factors = [topology_word(it, names) if rest[1] == "topology" else it for it in rest[2:]]
        return [head, names.choose("keyspace", rest[0]), *rest[1:2], *factors]
    count = node_words(head)
    return [head, *(names.here("node", it) for it in rest[:count]), *rest[count:]]


def node_words(head: str) -> int:
    """Returns how many words of a command are nodes; they come first."""
    return sum(it in ("NODE", "GONE") for it in COMMANDS[head])


def topology_word(said: str, names: Names) -> str:
    """Returns DC:RF with the name that the log has for a datacenter."""
    dc, colon, factor = said.rpartition(":")
    return f"{names.choose('datacenter', dc)}:{factor}" if colon else said
