"""Replicas by counting, and the reads and writes at a token."""
from __future__ import annotations

from typing import Dict, FrozenSet, List, Set, Tuple

from trials.machine.image import Image, Node
from trials.machine.terms import Group, Replication, Ring

Nodes = Dict[int, Node]
Sets = Tuple[FrozenSet[int], FrozenSet[int]]  # the nodes read, and those written


def met_from(group: Group, nodes: Nodes, ring: Ring, token: int) -> List[int]:
    """Returns the nodes of a group with tokens in a ring, by their first tokens clockwise from a token."""
    turned = [it for it in ring if it[0] >= token] + [it for it in ring if it[0] < token]
    return list(dict.fromkeys(node for _, node in turned if nodes[node].is_in(group)))


def racks_of(group: Group, nodes: Nodes, some: List[int]) -> Set[str]:
    """Returns the racks of some nodes of a group."""
    return {nodes[it].rack_in(group) for it in some}


def shape_of(group: Group, nodes: Nodes, members: List[int]) -> Tuple[int, int]:
    """Returns `wanted` and `spare` of a group whose members with tokens are these."""
    wanted = min(group.factor, len(members))
    return wanted, max(0, group.factor - len(racks_of(group, nodes, members)))


def taken(met: int, racks: int, spare: int) -> int:
    """Returns how many of the nodes that are met in these racks the walk has taken."""
    return min(racks + spare, met)


def group_replicas(group: Group, nodes: Nodes, ring: Ring, token: int) -> FrozenSet[int]:
    """Returns the replicas of a group at a token: each node by what is met before it."""
    members = met_from(group, nodes, ring, token)
    wanted, spare = shape_of(group, nodes, members)
    replicas = set()
    for d, node in enumerate(members):
        racks = racks_of(group, nodes, members[:d])
        is_new = nodes[node].rack_in(group) not in racks
        if taken(d, len(racks), spare) < wanted and (is_new or d - len(racks) < spare):
            replicas.add(node)
    return frozenset(replicas)


def placed(replication: Replication, nodes: Nodes, ring: Ring, token: int) -> FrozenSet[int]:
    """Returns the replicas at a token."""
    return frozenset().union(*(group_replicas(it, nodes, ring, token) for it in replication.groups))


def sets_at(image: Image, replication: Replication, token: int) -> Sets:
    """Returns the nodes that are read and written at a token."""
    at = {ring: placed(replication, image.by_id, ring, token) for ring in (image.low, image.read, image.high)}
    return at[image.read], at[image.low] | at[image.high]
