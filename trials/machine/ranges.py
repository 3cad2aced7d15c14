"""Reach, the ranges of movements, and which movements overlap."""
from __future__ import annotations

from typing import Callable, Dict, List, Optional, Tuple

from trials.machine.image import Image, Movement
from trials.machine.placement import met_from, racks_of, shape_of, taken
from trials.machine.terms import LEAST, Group, Replication, Row, in_arc, last_of, rows_of

Ranges = Dict[int, List[Row]]  # the rows in the ranges of each movement, by its node


def reach_of(image: Image, group: Group) -> Callable[[int, int], bool]:
    """Returns whether a token y reaches a token x in a group."""
    nodes = image.by_id
    fixed = met_from(group, nodes, image.fixed, LEAST)
    wanted, spare = shape_of(group, nodes, fixed)
    if (wanted, spare) != shape_of(group, nodes, met_from(group, nodes, image.widest, LEAST)):
        return lambda y, x: True

    def reaches(y: int, x: int) -> bool:
        met = list({it for token, it in image.fixed if in_arc(x, y, token) and nodes[it].is_in(group)})
        return taken(len(met), len(racks_of(group, nodes, met)), spare) < wanted

    return reaches


def ranges_under(image: Image, replication: Replication) -> Ranges:
    """Returns the ranges of each movement under a replication: the tokens that one of its pairs reaches."""
    groups = [(it, reach_of(image, it)) for it in replication.groups]

    def has(movement: Movement, x: int) -> bool:
        return any(
            image.by_id[node].is_in(group) and reaches(y, x)
            for y, node in (*movement.out, *movement.into)
            for group, reaches in groups
        )

    return {it.node: [row for row in rows_of(image.cuts) if has(it, last_of(row))] for it in image.movements}


def first_shared(ranges: List[Ranges], one: int, other: int) -> Optional[Row]:
    """Returns the first row that is in the ranges of two movements under one keyspace, whichever."""
    shared = [row for under in ranges for row in under[one] if row in under[other]]
    return min(shared, key=last_of) if shared else None


def overlaps(image: Image, ranges: List[Ranges]) -> List[Tuple[int, int, Row]]:
    """Returns the nodes of movements that overlap, the lesser first, and the first row that both have."""
    nodes = [it.node for it in image.movements]
    shared = [(one, other, first_shared(ranges, one, other)) for one in nodes for other in nodes if one < other]
    return [(one, other, row) for one, other, row in shared if row is not None]


def all_ranges(image: Image) -> List[Ranges]:
    """Returns the ranges under each keyspace."""
    return [ranges_under(image, it.replication) for it in image.keyspaces]


def lock_on(image: Image, new: int) -> Optional[Tuple[int, Row]]:
    """Returns the least node whose movement that of a new node overlaps, in an image that has it, and the row."""
    found = [(one if other == new else other, row) for one, other, row in overlaps(image, all_ranges(image))
             if new in (one, other)]
    return min(found, key=lambda it: it[0]) if found else None


def overlap_under(image: Image, replication: Replication) -> Optional[Tuple[int, int, Row]]:
    """Returns the least nodes whose movements overlap under a replication, and the row."""
    return next(iter(overlaps(image, [ranges_under(image, replication)])), None)


def overlapping(image: Image) -> Optional[int]:
    """Returns the least node whose movement overlaps that of a lesser node."""
    return min((other for _, other, _ in overlaps(image, all_ranges(image))), default=None)
