"""What a movement streams from where to where: the rows of `tcm plan`, and other sources where the strict one is down."""
from __future__ import annotations

from dataclasses import dataclass
from typing import Dict, Iterable, List, Optional, Sequence, Set, Tuple

from tools.answers import Stream, read_plan
from tools.log import State, refusal
from tools.placements import Stretch, merged
from tools.program import run
from tools.terms import GREATEST

STRICT, ANY, NOT_PROVED = "strict", "any", "not proved"


@dataclass(frozen=True)
class Taking:
    """What is told of a range: the node that takes its data, its sources and what they are, the node that loses it."""

    to: int
    sources: Tuple[int, ...]
    kind: str
    losing: Optional[int]


@dataclass(frozen=True)
class Streams:
    """What a movement streams under the keyspaces of one replication, neighbouring ranges merged."""

    keyspaces: Tuple[str, ...]
    stretches: List[Tuple[Stretch, Taking]]

    @property
    def width(self) -> int:
        """How many tokens are streamed."""
        return sum(it.width for it, _ in self.stretches)

    @property
    def losing(self) -> Set[int]:
        """The nodes that lose some range."""
        return {it.losing for _, it in self.stretches if it.losing is not None}


def streams_of(log: str, node: int, now: State, keyspaces: Sequence[str], down: Set[int]) -> List[Streams]:
    """Returns what the movement of a node streams, by the keyspaces of one replication; `now` is the last state."""
    found = []
    for same in now.distinct().values():
        group = tuple(it for it in same if it in keyspaces)
        if group:
            rows = plan_of(log, node, group[0])
            held = held_before(rows, now, group[0]) if any(it.strict in down for it in rows) else {}
            found.append(Streams(group, by_node((row, taking_of(row, now, down, held)) for row in rows)))
    return found


def plan_of(log: str, node: int, keyspace: str) -> List[Stream]:
    """Returns the rows of the stream plan of a movement under a keyspace."""
    ended = run(["plan", log, str(node), keyspace])
    if ended.status != 0:
        raise refusal(log, ended)
    return read_plan(ended.lines)


def held_before(rows: Sequence[Stream], now: State, keyspace: str) -> Dict[Optional[int], List[int]]:
    """Returns the nodes that are placed in ranges before the movement: those that are written, but for those added."""
    added: Dict[Optional[int], Set[int]] = {}
    for row in rows:
        added.setdefault(row.right, set()).add(row.to)
    written = {it.right: it.writes for it in now.place(keyspace).rows}
    return {right: [it for it in written[right] if it not in to] for right, to in added.items()}


def taking_of(row: Stream, now: State, down: Set[int], held: Dict[Optional[int], List[int]]) -> Taking:
    """Returns which sources of a row are up: the strict one, or any of several; else others, which isn't proved."""
    if row.strict is None:
        return Taking(row.to, tuple(it for it in row.any if it not in down), ANY, None)
    if row.strict not in down:
        return Taking(row.to, (row.strict,), STRICT, row.strict)
    others = [it for it in held[row.right] if it not in down]
    near = [it for it in others if now.by_id[it].dc == now.by_id[row.to].dc]
    return Taking(row.to, tuple(near or others), NOT_PROVED, row.strict)


def by_node(rows: Iterable[Tuple[Stream, Taking]]) -> List[Tuple[Stretch, Taking]]:
    """Returns rows merged with their neighbours, those of each node by themselves, in the order of their ends."""
    apart: Dict[int, List[Tuple[Stream, Taking]]] = {}
    for row, taking in rows:
        apart.setdefault(row.to, []).append((row, taking))
    found = [it for of_node in apart.values() for it in merged(of_node)]
    return sorted(found, key=lambda it: (GREATEST if it[0].right is None else it[0].right, it[1].to))
