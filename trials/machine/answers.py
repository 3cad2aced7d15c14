"""The texts of answers to queries."""
from __future__ import annotations

from typing import FrozenSet, List, Optional

from trials.machine.image import Image, pairs_text
from trials.machine.placement import Sets, sets_at
from trials.machine.terms import Replication, last_of, list_text, row_text, rows_of


def set_text(nodes: FrozenSet[int]) -> str:
    """Returns nodes as a list."""
    return list_text(sorted(nodes))


def nodes_text(image: Image) -> List[str]:
    """Returns the answer to `nodes`."""
    lines = [f"NODES {image.epoch} {len(image.nodes)} {len(image.movements)}"]
    for it in image.nodes:
        tokens = list_text(image.tokens_of(it.id))
        lines.append(f"{it.id} {it.name} {it.dc} {it.rack} {image.state_of(it)} {tokens}")
    for on in image.movements:
        lines.append(f"SEQ {on.node} {on.kind} {on.phase} out {pairs_text(on.out)} in {pairs_text(on.into)}")
    return lines


def place_text(image: Image, name: str) -> List[str]:
    """Returns the answer to `place`: a row for each range between cuts, with the sets of its last token."""
    keyspace = image.keyspace(name)
    if keyspace is None:
        return ["NO KEYSPACE"]
    rows = rows_of(image.cuts)
    lines = [f"PLACE {image.epoch} {name} {len(rows)}"]
    for row in rows:
        reads, writes = sets_at(image, keyspace.replication, last_of(row))
        lines.append(f"{row_text(row)} read {set_text(reads)} write {set_text(writes)}")
    return lines


def need_of_reads(total: int) -> int:
    """Returns how many replicas of so many a read needs."""
    return total // 2 + 1


def need_of_writes(total: int, sets: Sets) -> int:
    """Returns how many a write needs: one more for each pending node."""
    return need_of_reads(total) + len(sets[1] - sets[0])


def sets_text(word: str, image: Image, total: int, sets: Sets) -> List[str]:
    """Returns the answer to `quorum` or `local`."""
    read = f"read {need_of_reads(total)} of {set_text(sets[0])}"
    return [f"{word} {image.epoch} {read} write {need_of_writes(total, sets)} of {set_text(sets[1])}"]


def quorum_text(image: Image, name: str, token: int) -> List[str]:
    """Returns the answer to `quorum`."""
    keyspace = image.keyspace(name)
    if keyspace is None:
        return ["NO KEYSPACE"]
    return sets_text("QUORUM", image, keyspace.replication.total(), sets_at(image, keyspace.replication, token))


def factor_in(replication: Replication, dc: str) -> Optional[int]:
    """Returns how many replicas are asked for in a datacenter."""
    return next((it.factor for it in replication.groups if it.dc == dc), None)


def local_text(image: Image, name: str, dc: str, token: int) -> List[str]:
    """Returns the answer to `local`."""
    keyspace = image.keyspace(name)
    if keyspace is None:
        return ["NO KEYSPACE"]
    factor = factor_in(keyspace.replication, dc)
    if factor is None:
        return ["NO DC"]
    reads, writes = sets_at(image, keyspace.replication, token)
    here = frozenset(it.id for it in image.nodes if it.dc == dc)
    return sets_text("LOCAL", image, factor, (reads & here, writes & here))
