"""The image and its movements, the rings, and the state of a node."""
from __future__ import annotations

from dataclasses import dataclass, replace
from functools import cached_property
from typing import Dict, Iterable, Optional, Tuple

from trials.machine.terms import Group, Pair, Replication, Ring

PREPARED, STARTED, MID = PHASES = ("PREPARED", "STARTED", "MID")
KINDS = ("join", "move", "leave", "replace")
STEPS = {"start": (PREPARED, STARTED), "mid": (STARTED, MID), "finish": (MID, "")}
SHOWN = {"join": "BOOTSTRAPPING", "move": "MOVING", "leave": "LEAVING", "replace": "BOOT_REPLACING"}


@dataclass(frozen=True)
class Node:
    """A registered node."""

    id: int
    name: str
    dc: str
    rack: str
    left: bool = False

    def is_in(self, group: Group) -> bool:
        """Returns whether the node is in a group."""
        return group.dc is None or group.dc == self.dc

    def rack_in(self, group: Group) -> str:
        """Returns the node's rack. All nodes are one rack for SimpleStrategy."""
        return "" if group.dc is None else self.rack


@dataclass(frozen=True)
class Movement:
    """A movement in flight, with the pairs that it takes out of the ring and puts in."""

    node: int
    kind: str
    phase: str
    out: Ring
    into: Ring

    def takes_part(self, node: int) -> bool:
        """Returns whether a node takes part: the movement's own, or one whose pairs go out."""
        return node == self.node or any(it == node for _, it in self.out)


@dataclass(frozen=True)
class Keyspace:
    """A keyspace."""

    name: str
    replication: Replication


@dataclass(frozen=True)
class Image:
    """The metadata of a cluster at an epoch."""

    epoch: int = 0
    next: int = 1
    nodes: Tuple[Node, ...] = ()
    tokens: Ring = ()
    keyspaces: Tuple[Keyspace, ...] = ()
    movements: Tuple[Movement, ...] = ()

    @cached_property
    def by_id(self) -> Dict[int, Node]:
        """The nodes by their ids."""
        return {it.id: it for it in self.nodes}

    @cached_property
    def low(self) -> Ring:
        """The ring with no movement applied."""
        return self.tokens

    @cached_property
    def read(self) -> Ring:
        """The ring with the movements at MID applied."""
        return applied(self.tokens, [it for it in self.movements if it.phase == MID])

    @cached_property
    def high(self) -> Ring:
        """The ring with the movements at STARTED or MID applied."""
        return applied(self.tokens, [it for it in self.movements if it.phase != PREPARED])

    @cached_property
    def fixed(self) -> Ring:
        """The pairs that stay, whatever becomes of the movements."""
        out = {pair for it in self.movements for pair in it.out}
        return tuple(it for it in self.tokens if it not in out)

    @cached_property
    def widest(self) -> Ring:
        """All pairs that are in the ring or may come into it."""
        return tuple(sorted({*self.tokens, *(pair for it in self.movements for pair in it.into)}))

    @cached_property
    def cuts(self) -> Tuple[int, ...]:
        """The tokens of the widest set, ascending."""
        return tuple(sorted({token for token, _ in self.widest}))

    def node(self, node: int) -> Optional[Node]:
        """Returns the node with an id."""
        return self.by_id.get(node)

    def keyspace(self, name: str) -> Optional[Keyspace]:
        """Returns the keyspace with a name."""
        return next((it for it in self.keyspaces if it.name == name), None)

    def movement(self, node: int) -> Optional[Movement]:
        """Returns the movement that is known by a node."""
        return next((it for it in self.movements if it.node == node), None)

    def tokens_of(self, node: int) -> Tuple[int, ...]:
        """Returns the tokens of a node in the ring."""
        return tuple(token for token, it in self.tokens if it == node)

    def state_of(self, node: Node) -> str:
        """Returns the state of a node: the first that fits."""
        movement = self.movement(node.id)
        if node.left:
            return "LEFT"
        if movement is not None and movement.phase != PREPARED:
            return SHOWN[movement.kind]
        return "JOINED" if self.tokens_of(node.id) else "REGISTERED"

    def with_movement(self, movement: Movement) -> Image:
        """Returns the image with a movement in the place of that of its node, if there is one."""
        by_node = {**{it.node: it for it in self.movements}, movement.node: movement}
        return replace(self, movements=tuple(by_node[it] for it in sorted(by_node)))

    def with_keyspace(self, keyspace: Keyspace) -> Image:
        """Returns the image with a keyspace in the place of that of its name, if there is one."""
        by_name = {**{it.name: it for it in self.keyspaces}, keyspace.name: keyspace}
        return replace(self, keyspaces=tuple(by_name[it] for it in sorted(by_name)))


def applied(ring: Ring, movements: Iterable[Movement]) -> Ring:
    """Returns a ring without the pairs that movements take out, and with those that they put in."""
    out = {pair for it in movements for pair in it.out}
    into = [pair for it in movements for pair in it.into]
    return tuple(sorted([*(it for it in ring if it not in out), *into])) if out or into else ring


def pairs_text(pairs: Ring) -> str:
    """Returns pairs as `nodes` shows them."""
    return ",".join(f"{token}@{node}" for token, node in pairs) or "-"


def pair_list(pairs: Iterable[Pair]) -> Ring:
    """Returns pairs, ascending by token."""
    return tuple(sorted(pairs))
