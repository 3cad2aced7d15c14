"""Sums over placements that `tcm` answered: shares, rows that are streamed, rows that change."""
from __future__ import annotations

from bisect import bisect_left
from dataclasses import dataclass
from typing import Dict, Iterable, List, Optional, Tuple, TypeVar, Union

from tools.answers import Placement, Row, Stream
from tools.terms import row_name

Told = TypeVar("Told")


def read_shares(placement: Placement) -> Dict[int, int]:
    """Returns for each node that is read how many tokens it is read at."""
    shares: Dict[int, int] = {}
    for row in placement.rows:
        tokens = row.width
        for node in row.reads:
            shares[node] = shares.get(node, 0) + tokens
    return shares


def pending_shares(placement: Placement) -> Dict[int, int]:
    """Returns for each node how many tokens it is written and not read at."""
    shares: Dict[int, int] = {}
    for row in placement.rows:
        for node in row.pending:
            shares[node] = shares.get(node, 0) + row.width
    return shares


def row_at(placement: Placement, token: int) -> Row:
    """Returns the row of a token."""
    ends = [it.right for it in placement.rows if it.right is not None]
    return placement.rows[min(bisect_left(ends, token), len(placement.rows) - 1)]


@dataclass(frozen=True)
class Stretch:
    """Neighbouring rows that are alike in some way; past the end of the ring, its left is above its right."""

    left: Optional[int]
    right: Optional[int]
    width: int

    @property
    def name(self) -> str:
        """The stretch as answers show a row."""
        return row_name(self.left, self.right)


def merged(rows: Iterable[Tuple[Union[Row, Stream], Told]]) -> List[Tuple[Stretch, Told]]:
    """Returns rows with what is told of them, neighbours merged where the same is told.

    The last row of the ring is a neighbour of the first: both become a stretch from a greater to a lesser token.
    """
    found: List[Tuple[Stretch, Told]] = []
    for row, told in rows:
        if found and found[-1][1] == told and found[-1][0].right == row.left and row.left is not None:
            before = found[-1][0]
            found[-1] = (Stretch(before.left, row.right, before.width + row.width), told)
        else:
            found.append((Stretch(row.left, row.right, row.width), told))
    return close_ring(found)


def close_ring(found: List[Tuple[Stretch, Told]]) -> List[Tuple[Stretch, Told]]:
    """Merges the stretch at the end of the ring into that at its beginning, if the same is told of both."""
    if len(found) < 2:
        return found
    (first, told), (last, same) = found[0], found[-1]
    if first.left is not None or last.right is not None or told != same:
        return found
    return [(Stretch(last.left, first.right, first.width + last.width), told), *found[1:-1]]

