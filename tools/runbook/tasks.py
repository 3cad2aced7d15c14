"""The movements of a runbook, from what the program answers on a copy of the log."""
from __future__ import annotations

from dataclasses import dataclass
from typing import Dict, List, Optional, Sequence, Set, Tuple

from tools.answers import Movement
from tools.flight import Trial
from tools.log import State, copy_of, state, words_on
from tools.names import Names
from tools.placements import read_shares
from tools.program import Session
from tools.runbook.steps import Stream, Task
from tools.streams import STRICT, Streams, Taking, streams_of
from tools.terms import listed
from tools.waves import Plan, Wave
from tools.wishes import command_of


@dataclass
class Scene:
    """A copy of a log at a moment, with the names, the nodes that are down, and the Load of nodes in bytes."""

    copy: str
    now: State
    names: Names
    down: Set[int]
    loads: Dict[int, int]

    def name(self, node: int) -> str:
        """Returns the name of a node."""
        return self.names.there("node", self.now.by_id[node].name)

    def task_of(self, movement: Movement, phase: str = "") -> Task:
        """Returns a movement that is in flight here as a task; `phase` is told if it is in flight in the log, too."""
        node = self.now.by_id[movement.node]
        streams = streams_of(self.copy, movement.node, self.now, list(self.now.replications), self.down)
        gone = {n for _, n in movement.outgoing} if movement.kind in ("leave", "replace") else set()
        losing = sorted({n for group in streams for n in group.losing} - gone)
        replaced = movement.outgoing[0][1] if movement.kind == "replace" else None
        others = [it for it in self.now.nodes.nodes if it.dc == node.dc and it.id != node.id and it.tokens]
        return Task(
            movement.kind,
            self.name(node.id),
            self.names.there("datacenter", node.dc),
            self.names.there("rack", node.rack),
            tuple(sorted(token for token, _ in movement.incoming)),
            "" if replaced is None else self.name(replaced),
            gone_is_down=replaced in self.down,
            node_is_down=node.id in self.down,
            opens_dc=not others,
            phase=phase,
            streams=tuple(it for group in streams for it in self.rows_of(group)),
            cleanup=tuple(self.name(it) for it in losing),
        )

    def rows_of(self, group: Streams) -> List[Stream]:
        """Returns what is streamed under the keyspaces of one replication, by node and source."""
        widths: Dict[Taking, int] = {}
        for stretch, taking in group.stretches:
            key = Taking(taking.to, taking.sources, taking.kind, None)
            widths[key] = widths.get(key, 0) + stretch.width
        return [self.row_of(group, taking, width) for taking, width in widths.items()]

    def row_of(self, group: Streams, taking: Taking, width: int) -> Stream:
        """Returns what is streamed to a node from the same source, or from any of the same sources."""
        names = [self.name(it) for it in taking.sources]
        said = names[0] if len(names) == 1 else f"any of {listed(names)}" if names else "NO SOURCE IS UP"
        keyspaces = tuple(self.names.there("keyspace", it) for it in group.keyspaces)
        size = self.size_of(group.keyspaces[0], taking.sources, width)
        return Stream(self.name(taking.to), said, keyspaces, width, taking.kind == STRICT, size)

    def size_of(self, keyspace: str, sources: Sequence[int], width: int) -> Optional[int]:
        """Returns an estimate of the bytes in so many tokens of a source: as its Load, by its share of the keyspace."""
        loaded = [it for it in sources if it in self.loads]
        if not loaded:
            return None
        share = read_shares(self.now.place(keyspace)).get(loaded[0], 0)
        return int(self.loads[loaded[0]] * min(1.0, width / share)) if share else None


def in_flight(log: str, names: Names, down: Sequence[str], loads: Dict[str, int]) -> List[Task]:
    """Returns the movements in flight of a log as tasks."""
    with copy_of(log) as copy:
        scene = scene_of(copy, names, down, loads)
        return [scene.task_of(it, it.phase) for it in scene.now.movements]


def planned(log: str, made: Plan, names: Names, down: Sequence[str], loads: Dict[str, int]) -> List[List[Task]]:
    """Goes through a plan on a copy of a log, and returns the movements of each wave as tasks."""
    with copy_of(log) as copy, Session(words_on(copy)) as session:
        walk = Walk(copy, Trial(session, copy, state(copy).epoch), names, made)
        walk.begin()
        return [walk.wave(it, down, loads) for it in made.waves]


@dataclass
class Walk:
    """A plan that is gone through on a copy."""

    copy: str
    trial: Trial
    names: Names
    made: Plan

    def begin(self) -> None:
        """Finishes what is half way, and registers the new nodes."""
        for kind, node in self.made.finished:
            self.trial.commit(f"finish-{kind} {node}")
        for name, dc, rack in self.made.registered:
            words = (("node", name), ("datacenter", dc), ("rack", rack))
            self.trial.commit("register " + " ".join(self.names.choose(kind, it) for kind, it in words))

    def wave(self, wave: Wave, down: Sequence[str], loads: Dict[str, int]) -> List[Task]:
        """Goes through a wave, and returns its movements as they were once all had started."""
        ids = {name: node for node, name in self.made.node_names.items()}
        moving: List[Tuple[str, int, str]] = list(wave.already)
        for wish in wave.wishes:
            node, gone = (ids.get(self.names.choose("node", it)) if it else None for it in (wish.name, wish.gone))
            self.trial.commit(command_of(wish, node, gone))
            moving.append((wish.kind, node or 0, "PREPARED"))
        self.step("start", [it for it in moving if it[2] == "PREPARED"])
        scene = scene_of(self.copy, self.names, down, loads)
        phases = {node: phase for _, node, phase in wave.already}
        tasks = [scene.task_of(it, phases.get(it.node, "")) for it in scene.now.movements]
        self.step("mid", [it for it in moving if it[2] != "MID"])
        self.step("finish", moving)
        return tasks

    def step(self, step: str, moving: Sequence[Tuple[str, int, str]]) -> None:
        """Takes movements a step further."""
        for kind, node, _ in moving:
            self.trial.commit(f"{step}-{kind} {node}")


def scene_of(copy: str, names: Names, down: Sequence[str], loads: Dict[str, int]) -> Scene:
    """Returns the scene of a copy's last state; nodes that aren't in it are passed over."""
    now = state(copy)
    ids = {names.there("node", it.name): it.id for it in now.nodes.nodes}
    ids.update({it.name: it.id for it in now.nodes.nodes})
    known = {ids[it]: load for it, load in loads.items() if it in ids}
    return Scene(copy, now, names, {ids[it] for it in down if it in ids}, known)
