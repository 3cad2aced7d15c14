"""The deltas of movements, and stream plans."""
from __future__ import annotations

from itertools import zip_longest
from typing import List, Optional, Tuple

from trials.machine.image import Image, Movement, applied
from trials.machine.placement import group_replicas, placed
from trials.machine.terms import Group, Replication, last_of, list_text, row_text, rows_of

Streams = List[Tuple[int, Optional[int]]]  # a node gained, and the lost node whose place it takes, if any


def group_streams(image: Image, movement: Movement, group: Group, token: int) -> Streams:
    """Returns the nodes gained in a group, the i-th with the i-th node lost, from which it streams, if there is one."""
    before = group_replicas(group, image.by_id, image.low, token)
    after = group_replicas(group, image.by_id, applied(image.low, [movement]), token)
    gained, lost = sorted(after - before), sorted(before - after)
    return list(zip_longest(gained, lost[: len(gained)]))


def plan_rows(image: Image, movement: Movement, replication: Replication) -> List[str]:
    """Returns the rows of a plan: one for each range between cuts and each node gained there."""
    rows = []
    for row in rows_of(image.cuts):
        token = last_of(row)
        anyone = list_text(sorted(placed(replication, image.by_id, image.low, token)))
        streams = dict(it for group in replication.groups for it in group_streams(image, movement, group, token))
        for node, lost in sorted(streams.items()):
            rows.append(f"{row_text(row)} to {node} {f'any {anyone}' if lost is None else f'from {lost}'}")
    return rows
