"""Draws placements as rings, side by side: for few rows.

A ring goes clockwise from `min` at the top to `max`. Each row of the answer is an arc between two tokens. Each node has
a track of its own, the least id inside: full where the node is read, hatched where it is written and not read.
"""
from __future__ import annotations

import math
from dataclasses import dataclass
from typing import Dict, List, Optional, Sequence, Tuple

from tools.answers import Placement, Row
from tools.svg import COLOURS, GAP, GREY, LABEL, TITLE, colour_at, legend, length, number, picture, text, tip, title
from tools.terms import GREATEST, LEAST, row_name

HOLE = 46  # the radius inside the tracks
BAND = 132  # the least breadth of all tracks together
TRACK = (7, 24)  # the least and the greatest breadth of a track
NUMBERED = 12  # the least breadth where colours come again, so that there is room for the numbers of nodes
APART = 15.0  # degrees between neighbouring tokens, from which on they stand by their share of the ring
MOST_ACROSS = 20  # rows, from which on the labels of tokens turn with the ring


@dataclass
class Look:
    """What all rings of a picture share."""

    nodes: List[int]
    names: Dict[int, str]
    by_share: bool
    track: float
    beside: float  # room for labels at the left and at the right
    above: float  # and above and below
    turned: bool

    @property
    def outside(self) -> float:
        """The radius of all tracks."""
        return HOLE + self.track * max(1, len(self.nodes))

    @property
    def half_width(self) -> float:
        """Half of the width of a ring with its labels."""
        return self.outside + self.beside

    @property
    def half_height(self) -> float:
        """Half of the height of a ring with its labels."""
        return self.outside + self.above

    def turns(self, rows: Sequence[Row]) -> List[float]:
        """Returns the degrees at which rows end."""
        return turns_by_share(rows) if self.by_share else [360.0 * (i + 1) / len(rows) for i in range(len(rows))]

    def colour(self, node: int) -> Tuple[str, str]:
        """Returns the colour of a node, and that of text upon it."""
        return colour_at(node - 1)


def draw_rings(placements: List[Placement], nodes: List[int], names: Dict[int, str]) -> str:
    """Returns the picture of some placements, with a track for each of some nodes."""
    look = look_of(placements, nodes, names)
    titles = [f"keyspace {it.keyspace}, epoch {it.epoch}" for it in placements]
    each = max(2 * look.half_width, max(length(it, TITLE) for it in titles) + GAP)
    width, top = max(each * len(placements), 360.0), 2.0 * LABEL + 14
    places = "at their share of the ring" if look.by_share else "at even distances, not to scale"
    drawn, height = legend(legend_of(look), f"Clockwise from min; tokens stand {places}.", width)
    below = top + 2 * look.half_height + 4
    parts: List[str] = []
    for i, (placement, said) in enumerate(zip(placements, titles)):
        x = width * (i + 0.5) / len(placements)
        parts += [
            f'<g transform="translate({number(x)} {number(top + look.half_height)})">',
            *draw_ring(look, placement, said),
            "</g>",
        ]
    parts += [f'<g transform="translate(0 {number(below)})">', *drawn, "</g>"]
    hatchings: Dict[object, str] = {0: GREY, **{n: look.colour(n)[0] for n in look.nodes}}
    return picture(width, below + height, hatchings, parts)


def look_of(placements: List[Placement], nodes: List[int], names: Dict[int, str]) -> Look:
    """Returns how rings are drawn."""
    rows = max(len(it.rows) for it in placements)
    widest = max((label(row.right) for it in placements for row in it.rows), key=len)
    turned = rows > MOST_ACROSS
    least = TRACK[0] if len(nodes) <= len(COLOURS) else NUMBERED
    track = max(least, min(TRACK[1], BAND / max(1, len(nodes))))
    # (many rows need a greater ring, so that their labels don't touch)
    track = max(track, (rows * 1.3 * LABEL / (2 * math.pi) - HOLE) / max(1, len(nodes)))
    by_share = all(are_apart(turns_by_share(it.rows)) for it in placements)
    return Look(
        nodes, names, by_share, track, GAP + length(widest), GAP + (length(widest) if turned else LABEL), turned
    )


def turns_by_share(rows: Sequence[Row]) -> List[float]:
    """Returns the degrees at which rows end, by the tokens' shares of the ring."""
    ends = [GREATEST if row.right is None else row.right for row in rows]
    return [360.0 * (end - LEAST) / (GREATEST - LEAST) for end in ends]


def are_apart(turns: List[float]) -> bool:
    """Returns whether neighbouring ends, the top among them, are far enough apart for their labels."""
    return all(b - a >= APART for a, b in zip([0.0, *turns], turns))


def legend_of(look: Look) -> List[Tuple[str, str]]:
    """Returns the fields of the legend: a fill and what it says."""
    fields = [(look.colour(n)[0], look.names.get(n, f"node {n}")) for n in look.nodes]
    return [*fields, (GREY, "read and written"), ("url(#pending-0)", "written, not read")] if fields else []


def point(radius: float, turn: float) -> Tuple[float, float]:
    """Returns the place at some degrees clockwise from the top."""
    angle = math.radians(turn)
    return radius * math.sin(angle), -radius * math.cos(angle)


def at(radius: float, turn: float) -> str:
    """Returns the text of a place, as paths have it."""
    x, y = point(radius, turn)
    return f"{number(x)} {number(y)}"


def label(end: Optional[int]) -> str:
    """Returns the label of a right end."""
    return "max" if end is None else str(end)


def sector(inner: float, outer: float, begin: float, end: float) -> str:
    """Returns the path round a part of a track; each arc goes by its middle, as a whole circle needs."""
    middle = (begin + end) / 2
    far = "".join(f"A{number(outer)} {number(outer)} 0 0 1 {at(outer, it)}" for it in (middle, end))
    near = "".join(f"A{number(inner)} {number(inner)} 0 0 0 {at(inner, it)}" for it in (middle, begin))
    return f"M{at(outer, begin)}{far}L{at(inner, end)}{near}Z"


def draw_ring(look: Look, placement: Placement, said: str) -> List[str]:
    """Draws a placement about the origin."""
    ends = look.turns(placement.rows)
    spans = list(zip([0.0, *ends], ends, placement.rows))
    parts = [f'<path d="{sector(HOLE, look.outside, 0, 360)}" fill="#f3f3f3"/>']
    for node in look.nodes:
        for begin, end, row in spans:
            parts += draw_part(look, node, row, begin, end)
    for i in range(len(look.nodes) + 1):
        parts.append(f'<circle r="{number(HOLE + look.track * i)}" fill="none" stroke="#ffffff"/>')
    for end, row in zip(ends[:-1], placement.rows):
        parts += draw_end(look, end, label(row.right))
    # (the ring closes at the top: the last row ends where the first one begins)
    parts += draw_end(look, 0, f"{label(placement.rows[-1].right)} | min")
    return [*parts, title(0, -look.half_height - 4, said)]


def draw_part(look: Look, node: int, row: Row, begin: float, end: float) -> List[str]:
    """Draws a node in a row, if it is a replica there."""
    inner = HOLE + look.track * look.nodes.index(node)
    path = sector(inner, inner + look.track, begin, end)
    if node in row.reads:
        fill, said = look.colour(node)[0], "read and written" if node in row.writes else "read"
    elif node in row.writes:
        fill, said = f"url(#pending-{node})", "written, not read"
    else:
        return []
    told = f"{row_name(row.left, row.right)} {look.names.get(node, f'node {node}')}: {said}"
    return [
        f'<path d="{path}" fill="{fill}">{tip(told)}</path>', *draw_id(look, node, row, inner, (begin, end))
    ]


def draw_id(look: Look, node: int, row: Row, inner: float, span: Tuple[float, float]) -> List[str]:
    """Draws the id of a node in its part of a track, if there is room."""
    middle, height = inner + look.track / 2, min(LABEL, look.track - 2)
    if height < 8 or math.radians(span[1] - span[0]) * middle < length(str(node)) + 5:
        return []
    x, y = point(middle, sum(span) / 2)
    upon = look.colour(node)[1] if node in row.reads else "#000000"
    halo = "" if node in row.reads else ' stroke="#ffffff" stroke-width="3" paint-order="stroke"'
    return [text(x, y + 0.36 * height, str(node), more=f' font-size="{number(height)}" fill="{upon}"{halo}')]


def draw_end(look: Look, turn: float, said: str) -> List[str]:
    """Draws the end of a row: a line across the tracks, and its token."""
    parts = [f'<path d="M{at(HOLE - 4, turn)}L{at(look.outside + 6, turn)}" stroke="#222222"/>']
    if look.turned:
        x, y = point(look.outside + 10, turn)
        is_left = turn > 180
        angle = f"{number(turn + (90 if is_left else -90))} {number(x)} {number(y)}"
        return [
            *parts,
            text(
                x, y, said, "end" if is_left else "start", f' transform="rotate({angle})" dominant-baseline="central"'
            ),
        ]
    x, y = point(look.outside + 11, turn)
    anchor = "middle" if abs(x) < 1 else "start" if x > 0 else "end"
    return [*parts, text(x, y + LABEL * (0.36 - 0.4 * math.cos(math.radians(turn))), said, anchor)]
