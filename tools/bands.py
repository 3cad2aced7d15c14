"""Draws placements as bands, one below the other: for many rows.

Each node has a band, by datacenter and rack, which goes from `min` at the left to `max` at the right, to scale: full
where the node is read, hatched where it is written and not read. Its shares of the ring stand at the right.
"""
from __future__ import annotations

from dataclasses import dataclass
from typing import Dict, List, Optional, Sequence, Tuple

from tools.answers import Node, Placement
from tools.placements import pending_shares, read_shares
from tools.svg import GAP, GREY, LABEL, TITLE, colour_at, legend, length, number, picture, text, tip
from tools.terms import WHOLE, percent, row_name

BREADTH = 840.0  # of the ring
MOST_TALL = 120  # nodes, from which on bands are lower
MOST_LINES = 64  # rows, up to which their ends are drawn
MOST_TOLD = 40  # parts of a band, up to which each has the name of its range
AXIS = (("min", 0), ("-2^62", 0.25), ("0", 0.5), ("2^62", 0.75), ("max", 1))
BOLD = ' font-weight="bold"'
SHARES = "100.00% + 100.00%"
CAPTION = (
    "From min at the left to max at the right, to scale; a colour for each rack. "
    "At the right: the share of the ring that is read, + what is written and not read."
)


@dataclass
class Span:
    """Neighbouring rows as a part of the ring: where they begin and end, from 0 to 1, and by which tokens."""

    begin: float
    end: float
    left: Optional[int]
    right: Optional[int]


Spans = Dict[int, List[Span]]  # by node


@dataclass
class Look:
    """What all bands of a picture share; `nodes` are the nodes that have one, by datacenter and rack."""

    nodes: List[Node]
    racks: List[Tuple[str, str]]  # all datacenters and racks, in order
    height: float
    for_names: float  # the room for the names of nodes
    for_racks: float  # and for those of racks

    @property
    def left(self) -> float:
        """Where the ring begins."""
        return GAP + self.for_racks + self.for_names + 12

    @property
    def letters(self) -> float:
        """The size of the letters of names."""
        return min(LABEL, self.height - 3)

    @property
    def size(self) -> str:
        """The size of the letters, as texts have it."""
        return f' font-size="{number(self.letters)}"'

    def base(self, y: float) -> float:
        """Returns where the letters of a band stand that begins at a height."""
        return y + self.height / 2 + 0.36 * self.letters

    @property
    def width(self) -> float:
        """The width of the picture."""
        return self.left + BREADTH + 12 + length(SHARES) + GAP

    def colour(self, node: Node) -> Tuple[int, str]:
        """Returns the place of a node's rack among all, and its colour."""
        place = self.racks.index((node.dc, node.rack))
        return place, colour_at(place)[0]


def draw_bands(placements: List[Placement], nodes: Sequence[Node]) -> str:
    """Returns the picture of some placements, with a band for each of some nodes."""
    ordered = sorted(nodes, key=lambda it: (it.dc, it.rack, it.id))
    height = 16.0 if len(ordered) <= MOST_TALL else 9.0
    letters = min(LABEL, height - 3)
    names, racks = (
        max(length(said, letters) for said in it) for it in zip(*((node.name, node.rack) for node in ordered))
    )
    look = Look(ordered, sorted({(it.dc, it.rack) for it in ordered}), height, names, racks)
    parts, y = [], 0.0
    for placement in placements:
        drawn, y = draw_placement(look, placement, y)
        parts += drawn
    fields = [(GREY, "read and written"), ("url(#pending-grey)", "written, not read")]
    drawn, tall = legend(fields, CAPTION, look.width)
    parts += [f'<g transform="translate(0 {number(y + GAP)})">', *drawn, "</g>"]
    hatchings: Dict[object, str] = {"grey": GREY, **dict(look.colour(it) for it in ordered)}
    return picture(look.width, y + GAP + tall, hatchings, parts)


def draw_placement(look: Look, placement: Placement, y: float) -> Tuple[List[str], float]:
    """Draws a placement below a height, and returns the height below it."""
    said = f"keyspace {placement.keyspace}, epoch {placement.epoch}"
    y += 2 * TITLE
    parts = [text(GAP, y, said, "start", f' font-size="{TITLE}" font-weight="bold"'), *draw_axis(look, y + 20)]
    y += 26
    reads, pending, before = read_shares(placement), pending_shares(placement), ("", "")
    spans, top, held = spans_of(placement), y, {it.dc for it in look.nodes if it.id in reads or it.id in pending}
    for node in look.nodes:
        if node.dc != before[0]:
            y += LABEL + 8
            said = f"Datacenter {node.dc}" if node.dc else ""
            parts.append(text(GAP, y - 3, said + ("" if node.dc in held else ": no replicas"), "start", BOLD))
        if node.dc not in held:
            before = (node.dc, node.rack)
            continue
        shares = percent(reads.get(node.id, 0)) + (f" + {percent(pending[node.id])}" if node.id in pending else "")
        if (node.dc, node.rack) != before:
            parts.append(text(GAP, look.base(y), node.rack, "start", look.size))
        parts += draw_band(look, spans, node, y, shares)
        before, y = (node.dc, node.rack), y + look.height
    return parts + draw_lines(look, placement, top, y), y


def draw_axis(look: Look, y: float) -> List[str]:
    """Draws the names of some tokens above the bands."""
    return [text(look.left + part * BREADTH, y, said, more=f' fill="{GREY}"') for said, part in AXIS]


def draw_band(look: Look, spans: Tuple[Spans, Spans], node: Node, y: float, shares: str) -> List[str]:
    """Draws the band of a node, with its name and its shares."""
    place, colour = look.colour(node)
    size, base = look.size, look.base(y)
    parts = [text(look.left - 6, base, node.name, "end", size)]
    parts.append(
        f'<rect x="{number(look.left)}" y="{number(y + 1)}" width="{number(BREADTH)}" '
        f'height="{number(look.height - 2)}" fill="#f3f3f3"/>'
    )
    fills = ((colour, "read and written"), (f"url(#pending-{place})", "written, not read"))
    for (fill, said), found in zip(fills, spans):
        if node.id in found:
            parts += draw_spans(look, found[node.id], y, fill, f"{node.name}: {said}")
    return [*parts, text(look.left + BREADTH + 8, base, shares, "start", size)]


def draw_spans(look: Look, spans: List[Span], y: float, fill: str, said: str) -> List[str]:
    """Draws parts of a band, each with its range if they aren't too many."""
    paths = [(box(look, it.begin, it.end, y), f"{row_name(it.left, it.right)} {said}") for it in spans]
    if len(spans) > MOST_TOLD:
        paths = [("".join(path for path, _ in paths), said)]
    return [f'<path d="{path}" fill="{fill}">{tip(told)}</path>' for path, told in paths]


def spans_of(placement: Placement) -> Tuple[Spans, Spans]:
    """Returns where each node is read, and where it is written and not read; neighbours are merged."""
    read: Spans = {}
    pending: Spans = {}
    begin, at = 0.0, 0
    for row in placement.rows:
        at += row.width
        for nodes, spans in ((row.reads, read), (row.pending, pending)):
            for node in nodes:
                add_span(spans.setdefault(node, []), Span(begin, at / WHOLE, row.left, row.right))
        begin = at / WHOLE
    return read, pending


def add_span(spans: List[Span], span: Span) -> None:
    """Adds a span after others; if it follows the last of them, both become one."""
    if spans and spans[-1].right == span.left:
        spans[-1] = Span(spans[-1].begin, span.end, spans[-1].left, span.right)
    else:
        spans.append(span)


def box(look: Look, begin: float, end: float, y: float) -> str:
    """Returns the path round a part of a band."""
    x, wide, tall = look.left + begin * BREADTH, (end - begin) * BREADTH, look.height - 2
    return f"M{number(x)} {number(y + 1)}h{number(wide)}v{number(tall)}h{number(-wide)}z"


def draw_lines(look: Look, placement: Placement, top: float, below: float) -> List[str]:
    """Draws where rows end, if they aren't too many."""
    if len(placement.rows) > MOST_LINES:
        return []
    lines, at = "", 0
    for row in placement.rows[:-1]:
        at += row.width
        lines += f"M{number(look.left + BREADTH * at / WHOLE)} {number(top)}V{number(below)}"
    return [f'<path d="{lines}" stroke="#ffffff" stroke-width="0.5"/>'] if lines else []
