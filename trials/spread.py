"""The share that a joining node gets by chosen tokens and by evenly drawn ones, on random clusters, as a picture.

    python3 -m trials.spread > docs/pictures/fair-shares.svg
"""
from __future__ import annotations

import random
import sys
from typing import Dict, List, Sequence, Tuple

from tools.answers import Pair, Placement, read_placement
from tools.balance import Group, balanced
from tools.placements import read_shares
from tools.program import Session
from tools.svg import GAP, GREY, LABEL, colour_at, picture, text, title
from tools.terms import GREATEST, LEAST
from tools.wishes import draw_tokens

CLUSTERS, TOKENS = 200, 16
WIDTH, HEIGHT, MOST = 760.0, 260.0, 2.0
Parts = Tuple[float, float]  # of a fair share: by even tokens, by chosen ones


def placement_of(ring: Sequence[Pair], racks: Dict[int, str], factor: int) -> Placement:
    """Returns what the program places on a ring."""
    lines = [f"register n{it} dc {rack}" for it, rack in racks.items()] + [f"keyspace ks topology dc:{factor}"]
    for node in racks:
        mine = " ".join(str(token) for token, it in ring if it == node)
        lines += [f"unsafe-join {node} {mine}"] if mine else []
    with Session() as session:
        session.ask_all([f"commit {i} {it}" for i, it in enumerate(lines, 1)])
        return read_placement(session.ask(f"place @{len(lines)} ks"))


def parts_of(draw: random.Random) -> Parts:
    """Returns how much of its fair share a node gets that joins a random cluster."""
    nodes, rack_count, factor = draw.randint(3, 40), draw.randint(1, 5), draw.randint(1, 3)
    racks = {it: f"r{it % rack_count}" for it in range(1, nodes + 2)}
    ring = [(draw.randint(LEAST, GREATEST), it) for it in range(1, nodes + 1) for _ in range(TOKENS)]
    before = placement_of(ring, {it: racks[it] for it in range(1, nodes + 1)}, factor)
    group, taken = Group(factor, racks), {token for token, _ in ring}
    found = []
    for tokens in (draw_tokens("new", TOKENS, 1, taken), balanced(nodes + 1, TOKENS, ring, group, before)):
        after = placement_of([*ring, *((it, nodes + 1) for it in tokens)], racks, factor)
        found.append(read_shares(after).get(nodes + 1, 0) / group.fair_share(nodes + 1))
    return found[0], found[1]


def drawn(parts: Sequence[Parts]) -> str:
    """Draws a dot for each cluster, those by even tokens above those by chosen ones."""
    left, right = 150.0, WIDTH - 2 * GAP
    lines: List[str] = [title(WIDTH / 2, GAP, "The share of a joining node, as a part of its fair share")]

    def at(part: float) -> float:
        return left + (right - left) * min(part, MOST) / MOST

    for place, name in enumerate(("evenly drawn tokens", "chosen tokens")):
        y = 70.0 + 90 * place
        lines.append(text(left - 12, y + 24, name, "end"))
        for i, pair in enumerate(parts):
            height = y + 48 * (i * 0.618034 % 1)
            lines.append(f'<circle cx="{at(pair[place]):.1f}" cy="{height:.1f}" r="2.6" fill="{colour_at(place)[0]}"/>')
    for tick in (0, 0.5, 1, 1.5, 2):
        width = 1.6 if tick == 1 else 0.5
        lines.append(f'<path d="M{at(tick):.1f} 58V226" stroke="{GREY}" stroke-width="{width}" fill="none"/>')
        lines.append(text(at(tick), 226 + LABEL + 6, f"{tick:g}" + (" or more" if tick == MOST else "")))
    return picture(WIDTH, HEIGHT, {}, lines)


def main() -> None:
    """Prints the picture, and the least and the greatest part on standard error."""
    draw = random.Random(1)
    parts = [parts_of(draw) for _ in range(CLUSTERS)]
    for place, name in enumerate(("evenly drawn", "chosen")):
        mine = sorted(it[place] for it in parts)
        print(f"{name}: {mine[0]:.2f} to {mine[-1]:.2f}", file=sys.stderr)
    print(drawn(parts), end="")


if __name__ == "__main__":
    main()
