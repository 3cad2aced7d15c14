"""Slips in wishes: what a plan would do all the same, and what its reader may not have meant."""
from __future__ import annotations

from dataclasses import dataclass
from typing import Dict, Iterator, List, Sequence, Set, Tuple

from tools.answers import Node
from tools.balance import Group, groups_of
from tools.names import Names
from tools.near import meant
from tools.seen import Seen
from tools.terms import listed, plural
from tools.waves import Plan
from tools.wishes import Wish

FAR = (2 / 3, 3 / 2)  # a share outside of this, as a part of the fair one, is told


@dataclass(frozen=True)
class Slip:
    """What may not have been meant, and in which line of the wishes; 0 where it is in none."""

    line: int
    why: str

    def said(self, path: str) -> str:
        """Returns the slip as messages tell it."""
        return f"{path}:{self.line}: {self.why}" if self.line else self.why


@dataclass
class Scene:
    """The wishes with what they meet: the nodes of the log, those that are down, names, and what the import saw."""

    wishes: Sequence[Wish]
    nodes: Sequence[Node]
    down: Sequence[str]
    names: Names
    seen: Seen

    def here(self, name: str) -> str:
        """Returns the name of a node in the log."""
        return self.names.here("node", name)

    def is_down(self, name: str) -> bool:
        """Returns whether a node is down."""
        return self.here(name) in {self.here(it) for it in self.down}


def slips_of(wishes: Sequence[Wish], made: Plan, down: Sequence[str], names: Names, seen: Seen) -> List[Slip]:
    """Returns the slips in wishes of which a plan was made."""
    scene = Scene(wishes, made.nodes[0], down, names, seen)
    found = [*new_places(scene), *down_nodes(scene), *unfair_shares(scene, made)]
    found.sort(key=lambda it: it.line)
    return [*missing_keyspaces(scene, made.replications), *found, *lost_racks(names, made)]


def new_places(scene: Scene) -> Iterator[Slip]:
    """Gives datacenters and racks of joins that no node has."""
    places: Set[Tuple[str, str]] = {
        (scene.names.there("datacenter", it.dc), scene.names.there("rack", it.rack)) for it in scene.nodes
    }
    for it in scene.wishes:
        if not it.dc:
            continue
        racks = sorted({rack for dc, rack in places if dc == it.dc})
        if not racks:
            yield Slip(it.line, f"the datacenter {it.dc} is new{meant(it.dc, {dc for dc, _ in places})}")
        elif it.rack not in racks:
            yield Slip(it.line, f"the rack {it.rack} of {it.dc} is new, beside {listed(racks)}{meant(it.rack, racks)}")
        places.add((it.dc, it.rack))


def down_nodes(scene: Scene) -> Iterator[Slip]:
    """Gives movements of nodes that are down, and replaces of nodes that aren't."""
    for it in scene.wishes:
        if scene.is_down(it.name):
            more = f": a leave streams from it; `replace NEW for {it.name}` doesn't" if it.kind == "leave" else ""
            yield Slip(it.line, f"{it.name} is down{more}")
        elif it.gone and not scene.is_down(it.gone):
            yield Slip(it.line, f"{it.gone} isn't down by `down {it.gone}`, and a replace is for a dead node")


def missing_keyspaces(scene: Scene, replications: Dict[str, str]) -> Iterator[Slip]:
    """Gives keyspaces that the import didn't have, and the log hasn't got since."""
    there = {scene.names.there("keyspace", it) for it in replications}
    lost = [it for it in scene.seen.missing if it not in there]
    if lost:
        yield Slip(
            0,
            f"the log has no keyspace {listed(lost)}, and each keyspace with replicas may make a movement wait: import "
            "what DESCRIBE FULL SCHEMA prints",
        )


# ---- What shows once the plan is made


def unfair_shares(scene: Scene, made: Plan) -> Iterator[Slip]:
    """Gives nodes of joins and moves whose share is far from a fair one."""
    ids = {name: node for node, name in made.node_names.items()}
    for it in scene.wishes:
        node = ids.get(scene.here(it.name), 0)
        shares = [(place, parts[node]) for place, parts in made.parts.items() if node in parts]
        far = [it for it in shares if not FAR[0] <= it[1] <= FAR[1]]
        if it.kind in ("join", "move") and far:
            (keyspace, dc), part = max(far, key=lambda of: max(of[1], 1 / max(of[1], 1e-9)))
            there = f" in {scene.names.there('datacenter', dc)}" if dc else ""
            spaces = listed([scene.names.there("keyspace", it) for it in made.same[keyspace]])
            yield Slip(it.line, f"{it.name} gets {part:.2f} times its fair share of {spaces}{there}")


def lost_racks(names: Names, made: Plan) -> Iterator[Slip]:
    """Gives factors for which the plan leaves too few racks, where there were enough."""
    for keyspace in made.same:
        before, after = (groups_of(made.replications[keyspace], it) for it in made.nodes)
        for dc, group in before.items():
            left = racks_of(after[dc]) if dc in after else 0
            if dc and racks_of(group) >= group.factor > left:
                spaces = listed([names.there("keyspace", it) for it in made.same[keyspace]])
                yield Slip(
                    0,
                    f"{spaces}: {plural(group.factor, 'replica')} in {names.there('datacenter', dc)}, which would have "
                    f"{plural(left, 'rack')} after the plan, and {racks_of(group)} before",
                )


def racks_of(group: Group) -> int:
    """Returns how many racks a group has."""
    return len(set(group.racks.values()))
