"""A runbook's parts: movements with what they stream, and the steps that carry them out."""
from __future__ import annotations

from dataclasses import dataclass
from typing import Optional, Tuple


@dataclass(frozen=True)
class Stream:
    """Data that a node gets from another one; `is_strict` if the source is the one that the program names."""

    to: str
    source: str
    keyspaces: Tuple[str, ...]
    tokens: int  # how many tokens of the ring it is of
    is_strict: bool
    size: Optional[int] = None  # an estimate in bytes


@dataclass(frozen=True)
class Task:
    """A movement that somebody is to carry out; all names are those of Cassandra."""

    kind: str
    node: str
    dc: str
    rack: str
    tokens: Tuple[int, ...] = ()
    gone: str = ""  # the node that a replace takes out
    gone_is_down: bool = False
    node_is_down: bool = False
    opens_dc: bool = False  # whether no other node of its datacenter is in the ring
    phase: str = ""  # of a movement that is in flight already
    streams: Tuple[Stream, ...] = ()
    cleanup: Tuple[str, ...] = ()  # nodes that lose ranges and stay

    @property
    def said(self) -> str:
        """The movement in words."""
        return f"{self.kind} {self.node}" + (f" for {self.gone}" if self.gone else "")

    def command(self, step: str) -> str:
        """Returns the command of a step as a script for `apply` has it."""
        more = [self.gone] if self.gone else [str(it) for it in self.tokens]
        return " ".join([f"{step}-{self.kind}", self.node, *(more if step == "prepare" else [])])


@dataclass(frozen=True)
class Block:
    """Lines to type, or to put into a file."""

    place: str  # the host, or the file with its host
    text: str
    language: str = "sh"


@dataclass(frozen=True)
class Step:
    """One step of a runbook."""

    title: str
    do: Tuple[Block, ...] = ()
    stands_for: Tuple[str, ...] = ()  # the commands of the log that it carries out
    look: Tuple[str, ...] = ()
    go_on: str = ""
    undo: str = ""
    notes: Tuple[str, ...] = ()
