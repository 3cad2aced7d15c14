"""Random clusters without movements in flight, as a script of the program and as data for drivers."""
from __future__ import annotations

import random
import re
from dataclasses import dataclass
from typing import Dict, List, Sequence, Tuple

LEAST, GREATEST = -(2**63), 2**63 - 1
ROW = re.compile(r"\((min|-?\d+),(max|-?\d+)\] read ([\d,]+|-) write ([\d,]+|-)")


@dataclass(frozen=True)
class Node:
    """A node of a cluster: its datacenter, rack and tokens."""

    dc: str
    rack: str
    tokens: Tuple[int, ...]


@dataclass(frozen=True)
class Keyspace:
    """A keyspace: a factor for each datacenter that it names, or the factor of SimpleStrategy under the name ""."""

    name: str
    factors: Dict[str, int]

    @property
    def said(self) -> str:
        """The replication as scripts write it."""
        if "" in self.factors:
            return f"simple {self.factors['']}"
        return "topology " + " ".join(f"{dc}:{rf}" for dc, rf in self.factors.items())


@dataclass(frozen=True)
class Cluster:
    """Nodes, the first with id 1, and keyspaces; `by_steps` are the nodes that join by four steps."""

    nodes: Tuple[Node, ...]
    keyspaces: Tuple[Keyspace, ...]
    by_steps: Tuple[int, ...] = ()

    @property
    def ring(self) -> List[Tuple[int, int]]:
        """The tokens in order, each with the id of its node."""
        return sorted((token, i) for i, it in enumerate(self.nodes, 1) for token in it.tokens)

    def script(self) -> List[str]:
        """Returns the commands that make the cluster."""
        lines = [f"register n{i} {it.dc} {it.rack}" for i, it in enumerate(self.nodes, 1)]
        at_once = [i for i in range(1, len(self.nodes) + 1) if i not in self.by_steps]
        lines += [f"unsafe-join {i} {self.tokens_of(i)}" for i in at_once]
        lines += [f"keyspace {it.name} {it.said}" for it in self.keyspaces]
        for i in self.by_steps:
            lines.append(f"prepare-join {i} {self.tokens_of(i)}")
            lines += [f"{step}-join {i}" for step in ("start", "mid", "finish")]
        return lines

    def tokens_of(self, node: int) -> str:
        """Returns the tokens of a node as scripts write them."""
        return " ".join(str(it) for it in self.nodes[node - 1].tokens)

    def as_json(self) -> Dict[str, object]:
        """Returns the cluster as drivers read it, with tokens as texts."""
        return {
            "nodes": [[it.dc, it.rack] for it in self.nodes],
            "ring": [[str(token), node] for token, node in self.ring],
            "keyspaces": [it.factors for it in self.keyspaces],
        }


def drawn(draw: random.Random, most_nodes: int = 12) -> Cluster:
    """Returns a random cluster: several tokens a node, and racks fewer and more than the factor."""
    dcs = [f"dc{i}" for i in range(1, draw.choice((1, 1, 2, 2, 3)) + 1)]
    racks = {dc: draw.randint(1, 5) for dc in dcs}
    taken = set()
    nodes = []
    for _ in range(draw.randint(1, most_nodes)):
        dc = draw.choice(dcs)
        tokens = []
        for _ in range(draw.choice((1, 1, 2, 4, 8))):
            token = draw_token(draw)
            if token not in taken:
                taken.add(token)
                tokens.append(token)
        if tokens:
            nodes.append(Node(dc, f"r{draw.randint(1, racks[dc])}", tuple(sorted(tokens))))
    if not nodes:
        return drawn(draw, most_nodes)
    steps = tuple(i for i in range(2, len(nodes) + 1) if draw.random() < 0.15)
    return Cluster(tuple(nodes), tuple(draw_keyspaces(draw, dcs)), steps)


def draw_token(draw: random.Random) -> int:
    """Returns a token: often an end of the ring, a small number, or any one."""
    kind = draw.random()
    if kind < 0.05:
        return draw.choice((LEAST, GREATEST, LEAST + 1, GREATEST - 1, 0, -1))
    return draw.randint(-20, 20) if kind < 0.3 else draw.randint(LEAST, GREATEST)


def draw_keyspaces(draw: random.Random, dcs: Sequence[str]) -> List[Keyspace]:
    """Returns some keyspaces; a few name datacenters that have no node."""
    found = [Keyspace("s", {"": draw.randint(1, 6)})]
    for i in range(draw.randint(1, 4)):
        named = [it for it in dcs if draw.random() < 0.8] or [draw.choice(dcs)]
        if draw.random() < 0.2:
            named.append("elsewhere")
        found.append(Keyspace(f"k{i}", {it: draw.randint(1, 5) for it in named}))
    return found


def read_ranges(lines: Sequence[str]) -> List[Tuple[int, Tuple[int, ...]]]:
    """Returns for each row of an answer to `place` its last token and the nodes that are read there."""
    found = []
    for line in lines:
        row = ROW.fullmatch(line)
        if not row:
            raise ValueError(f"no row of a placement: {line[:80]}")
        last = GREATEST if row[2] == "max" else int(row[2])
        found.append((last, tuple(int(it) for it in row[3].split(",") if it != "-")))
    return found
