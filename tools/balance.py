"""Tokens for a node that joins, so that it gets its fair share of a keyspace and relieves the nodes that have most.

The choice is an estimate: for each gap of the ring, how far back a token there would make the node a replica. The
program answers the placements that it begins with, and those that come of it.
"""
from __future__ import annotations

from bisect import bisect_right
from collections import Counter
from dataclasses import dataclass, field
from functools import cached_property
from typing import Dict, List, Optional, Sequence, Set, Tuple

from tools.answers import Node, Pair, Placement
from tools.placements import read_shares
from tools.terms import LEAST, WHOLE

Arc = Tuple[int, int]  # where an arc begins, and how many tokens it has; the token where it begins isn't in it


@dataclass(frozen=True)
class Group:
    """Nodes that share the replicas of a keyspace, each with its rack, and how many replicas they have."""

    factor: int
    racks: Dict[int, str]

    @property
    def wanted(self) -> int:
        """How many replicas there are."""
        return min(self.factor, len(self.racks))

    @cached_property
    def sizes(self) -> Dict[str, int]:
        """How many nodes each rack has."""
        return dict(Counter(self.racks.values()))

    @property
    def spare(self) -> int:
        """How many replicas may stand in a rack that has one already."""
        return self.factor - min(self.factor, len(self.sizes))

    @cached_property
    def fair_shares(self) -> Dict[str, int]:
        """How many tokens a node of each rack would be a replica at, if all nodes of its rack were alike."""
        shares = shares_by_rack(self.sizes, self.wanted, self.spare)
        return {it: int(shares[it] / n * WHOLE) for it, n in self.sizes.items()}

    def fair_share(self, node: int) -> int:
        """Returns how many tokens a node would be a replica at, if all nodes of its rack were alike."""
        return self.fair_shares[self.racks[node]]


def groups_of(replication: str, nodes: Sequence[Node]) -> Dict[str, Group]:
    """Returns the groups of a replication by their datacenters; that of SimpleStrategy has no name and knows no racks."""
    there = [it for it in nodes if it.tokens]
    kind, *words = replication.split(" ")
    if kind == "simple":
        return {"": Group(int(words[0]), {it.id: str(it.id) for it in there})} if there else {}
    found = {}
    for dc, _, factor in (it.rpartition(":") for it in words):
        racks = {it.id: it.rack for it in there if it.dc == dc}
        if racks:
            found[dc] = Group(int(factor), racks)
    return found


def parts_of(shares: Dict[int, int], group: Group) -> Dict[int, float]:
    """Returns shares of a group's nodes as parts of their fair ones."""
    return {it: shares.get(it, 0) / max(1, group.fair_share(it)) for it in group.racks}


def shares_by_rack(sizes: Dict[str, int], wanted: int, spare: int) -> Dict[str, float]:
    """Returns how many of the replicas stand in each rack, if each node has as much as the rules of racks allow."""
    least = 1.0 if len(sizes) <= wanted else 0.0
    low, high = 0.0, float(wanted)
    shares: Dict[str, float] = {}
    for _ in range(60):
        level = (low + high) / 2
        shares = {it: min(max(n * level, least), n if spare else 1.0, float(n)) for it, n in sizes.items()}
        low, high = (level, high) if sum(shares.values()) < wanted else (low, level)
    return shares


@dataclass(frozen=True)
class Gap:
    """The tokens between two neighbours of the ring, and what a token there would change."""

    begin: int
    width: int
    reach: int  # from how far back of the beginning a node with a token here is a replica
    relieved: Dict[int, float]  # the nodes in whose place it would be a replica, with their parts of that

    @property
    def arc(self) -> Arc:
        """The tokens before the gap at which a node with a token in it is a replica."""
        return (self.begin - self.reach) % WHOLE, self.reach


@dataclass
class Choice:
    """Tokens that were chosen so far, the arcs at which they make the node a replica, and what others have then."""

    loads: Dict[int, float]  # shares of the other nodes, as parts of their fair ones
    tokens: List[int] = field(default_factory=list)
    arcs: List[Arc] = field(default_factory=list)

    @property
    def gained(self) -> int:
        """How many tokens the node is a replica at."""
        return sum(it[1] for it in self.arcs)

    def gain(self, begin: int, width: int) -> int:
        """Returns how many tokens of an arc aren't in one of the arcs yet."""
        return width - sum(overlap(begin, width, it) for it in self.arcs)

    def load(self, gap: Gap) -> float:
        """Returns the mean load of the nodes that a token in a gap would relieve."""
        return sum(self.loads[it] * part for it, part in gap.relieved.items())

    def is_free(self, gap: Gap) -> bool:
        """Returns whether a gap has room for a token and has none of these yet."""
        return gap.width > 1 and not any(0 < (it - gap.begin) % WHOLE < gap.width for it in self.tokens)

    def take(self, gap: Gap, offset: int, group: Group) -> None:
        """Takes the token that stands so far behind the beginning of a gap."""
        begin, width = gap.arc[0], gap.reach + offset
        gained = self.gain(begin, width)
        for it, part in gap.relieved.items():
            self.loads[it] -= gained * part / max(1, group.fair_share(it))
        self.arcs = [*parts_outside(self.arcs, begin, width), (begin, width)]
        self.tokens.append(LEAST + (gap.begin + offset - LEAST) % WHOLE)


def overlap(begin: int, width: int, arc: Arc) -> int:
    """Returns how many tokens two arcs have in common."""
    found = 0
    for shift in (-WHOLE, 0, WHOLE):
        low, high = max(begin, arc[0] + shift), min(begin + width, arc[0] + shift + arc[1])
        found += max(0, high - low)
    return found


def parts_outside(arcs: Sequence[Arc], begin: int, width: int) -> List[Arc]:
    """Returns what is left of arcs outside of another one."""
    found = []
    for first, size in arcs:
        offset = (begin - first) % WHOLE
        if offset < size:
            found.append((first, offset))
            found.append(((begin + width) % WHOLE, max(0, size - offset - width)))
        else:
            inside = min(size, max(0, offset + width - WHOLE))
            found.append(((first + inside) % WHOLE, size - inside))
    return [it for it in found if it[1]]


def balanced(node: int, count: int, ring: Sequence[Pair], group: Group, placement: Placement) -> List[int]:
    """Returns tokens for a node that joins, which the group has already; fewer where the ring has too few gaps."""
    pairs = sorted(it for it in ring if it[1] in group.racks and it[1] != node)
    shares = read_shares(placement)
    choice = Choice({it: shares.get(it, 0) / max(1, group.fair_share(it)) for it in group.racks})
    gaps, target = gaps_of(node, pairs, group, placement), group.fair_share(node)
    for left in range(count, 0, -1):
        found = best_place(choice, gaps, max(1, (target - choice.gained) // left))
        if not found:
            break
        choice.take(*found, group)
    return sorted(choice.tokens)


def best_place(choice: Choice, gaps: Sequence[Gap], wish: int) -> Optional[Tuple[Gap, int]]:
    """Returns the gap, with the place in it, where a token relieves most of those where it gains about so much.

    If it gains so much in no gap, it's the gap where it misses least.
    """
    best: Optional[Tuple[int, Gap, int]] = None
    for gap in sorted(gaps, key=choice.load, reverse=True):
        if not choice.is_free(gap):
            continue
        offset = min(max(1, wish - choice.gain(*gap.arc)), gap.width - 1)
        miss = abs(choice.gain(gap.arc[0], gap.reach + offset) - wish)
        if best is None or miss < best[0]:
            best = (miss, gap, offset)
        if miss * 50 <= wish:
            break
    return best and (best[1], best[2])


def gaps_of(node: int, pairs: Sequence[Pair], group: Group, placement: Placement) -> List[Gap]:
    """Returns the gaps between the tokens of a group, as they are for a node that joins it."""
    rows = sorted((LEAST - 1 if it.left is None else it.left, it.reads) for it in placement.rows)
    begins, found = [it[0] for it in rows], []
    widths = [(token - pairs[i - 1][0]) % WHOLE or WHOLE for i, (token, _) in enumerate(pairs)]
    gone = []
    for i in range(len(pairs)):
        replicas = rows[bisect_right(begins, pairs[i - 1][0]) - 1][1]
        gone.append(displaced(node, i, replicas, pairs, group))
    for i, width in enumerate(widths):
        back = gaps_back(node, i, pairs, group)
        behind = [(i - it) % len(pairs) for it in range(1, back + 1)]
        relieved: Dict[int, float] = {}
        reach = sum(widths[it] for it in behind)
        for it in (i, *behind):
            relieved[gone[it]] = relieved.get(gone[it], 0.0) + widths[it] / (reach + width)
        found.append(Gap(pairs[i - 1][0], width, reach, relieved))
    return found


def gaps_back(node: int, end: int, pairs: Sequence[Pair], group: Group) -> int:
    """Returns in how many gaps before that of the pair `end` a node with a token in that is a replica."""
    nodes: Set[int] = set()
    racks: Set[str] = set()
    for back in range(1, len(pairs)):
        other = pairs[end - back][1]
        nodes.add(other)
        racks.add(group.racks[other])
        taken = min(len(racks) + group.spare, len(nodes))
        if taken >= group.wanted or (group.racks[node] in racks and len(nodes) - len(racks) >= group.spare):
            return back - 1
    return len(pairs) - 1


def displaced(node: int, end: int, replicas: Sequence[int], pairs: Sequence[Pair], group: Group) -> int:
    """Returns the replica in whose place a node comes: that of its rack, where racks have one each, or the last one met."""
    left = {it for it in replicas if it in group.racks}
    near = [it for it in left if group.racks[it] == group.racks[node]]
    if near and not group.spare:
        return near[0]
    last = pairs[end][1]
    for i in range(len(pairs)):
        if not left:
            break
        last = pairs[(end + i) % len(pairs)][1] if pairs[(end + i) % len(pairs)][1] in left else last
        left.discard(last)
    return last
