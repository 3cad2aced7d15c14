"""Plans wishes on a copy of a log: which movements can be in flight together, wave after wave."""
from __future__ import annotations

from dataclasses import dataclass, field
from typing import Dict, List, Optional, Sequence, Tuple

from tools.answers import Node, is_refusal, read_nodes
from tools.balance import groups_of, parts_of
from tools.coupling import Attempt, Coupling, couplings
from tools.errors import Refused
from tools.flight import Trial
from tools.log import State, cluster_of, copy_of, state, words_on
from tools.margins import Level, Margin, Quorums, least
from tools.names import Names
from tools.near import meant
from tools.placements import read_shares
from tools.program import Session
from tools.progress import Say, silent
from tools.terms import STEPS
from tools.tokens import Chooser
from tools.wishes import Wish, chosen, command_of

Parts = Dict[Tuple[str, str], Dict[int, float]]  # by keyspace and datacenter, and by node
ORDER = {"PREPARED": 0, "STARTED": 1, "MID": 2}


@dataclass
class Wave:
    """Movements that can be in flight together, and what was seen of them on the copy."""

    wishes: List[Wish] = field(default_factory=list)
    waiting: Dict[str, str] = field(default_factory=dict)  # by the name of a wish: the refusal
    coupled: Dict[str, List[Coupling]] = field(default_factory=dict)
    already: List[Tuple[str, int, str]] = field(default_factory=list)  # kind, node and phase of what was in flight
    moved: Dict[str, Dict[int, int]] = field(default_factory=dict)  # by keyspace and node: tokens streamed to it
    margins: Dict[Level, Margin] = field(default_factory=dict)
    down: List[str] = field(default_factory=list)  # the nodes that are down and still in the ring


@dataclass
class Plan:
    """The waves, and what else was seen: `impossible` has the refusal that a wish still meets after all of them."""

    waves: List[Wave]
    finished: List[Tuple[str, int]]  # kinds and nodes of movements that were half way, and were finished first
    impossible: Dict[str, str]
    registered: List[Tuple[str, str, str]]  # new nodes, with datacenter and rack, by their names of Cassandra
    node_names: Dict[int, str]
    same: Dict[str, List[str]]  # one keyspace of each replication, with all that have it
    after: Dict[Level, Margin]
    before: Parts  # the shares of nodes, as parts of their fair ones, before the plan
    parts: Parts  # and after it
    begin: Tuple[Optional[str], int]  # the cluster and the epoch of the log
    nodes: Tuple[Sequence[Node], Sequence[Node]]  # the nodes before the plan, and after it
    replications: Dict[str, str]
    down: List[str]  # the nodes that are down and in the ring after the plan


class Planner:
    """Tries wishes on a copy of a log."""

    def __init__(self, session: Session, copy: str, names: Names, down: Sequence[str], say: Say = silent) -> None:
        self.copy, self.names, self.down, self.say = copy, names, down, say
        self.begin = now = state(copy)
        self.trial = Trial(session, copy, now.epoch)
        self.ids = {it.name: it.id for it in now.nodes.nodes}
        self.places = {it.name: (it.dc, it.rack) for it in now.nodes.nodes}
        self.replications, self.same = now.replications, now.distinct()
        self.refused: Dict[str, str] = {}  # by the name of a wish whose node can't be registered: the refusal
        self.quorums = Quorums(self.trial, now.replications, now.nodes.nodes, {self.id_of(it) for it in down})

    def now(self) -> State:
        """Returns the state of the copy now."""
        return State(self.copy, read_nodes(self.trial.session.ask(f"nodes @{self.trial.epoch}")))

    def here(self, name: str) -> str:
        """Returns the name that the log has for a name of Cassandra."""
        return self.names.choose("node", name)

    def id_of(self, name: str) -> int:
        """Returns the id of the node with a name."""
        if self.here(name) not in self.ids:
            raise Refused(f"no node {name} is in the log{meant(name, (self.names.there('node', it) for it in self.ids))}")
        return self.ids[self.here(name)]

    # ---- Nodes

    def register(self, wishes: Sequence[Wish]) -> List[Tuple[str, str, str]]:
        """Registers the nodes of joins and replaces that the log doesn't have yet, and returns them."""
        found = []
        self.check_once(wishes)
        for wish in wishes:
            if wish.kind not in ("join", "replace"):
                self.id_of(wish.name)
                continue
            dc, rack = self.place_of(wish)
            if self.here(wish.name) not in self.ids:
                answer = self.trial.try_commit(f"register {self.here(wish.name)} {dc} {rack}")
                if is_refusal(answer):
                    self.refused[wish.name] = answer[0]
                    continue
                found.append((wish.name, self.names.word("datacenter", dc), self.names.word("rack", rack)))
                self.ids[self.here(wish.name)], self.places[self.here(wish.name)] = 0, (dc, rack)
            elif wish.kind == "join" and self.places[self.here(wish.name)] != (dc, rack):
                raise Refused(
                    f"{wish.name} is registered in {' '.join(self.places[self.here(wish.name)])}, not in {dc} {rack}"
                )
        nodes = self.now().nodes.nodes
        self.ids = {it.name: it.id for it in nodes}
        self.quorums.codes.add(nodes)
        return found

    def check_once(self, wishes: Sequence[Wish]) -> None:
        """Checks that no two wishes are for one node, however they call it."""
        seen: Dict[str, str] = {}
        for wish in wishes:
            before = seen.setdefault(self.here(wish.name), wish.name)
            if before != wish.name:
                raise Refused(f"{wish.name} has a wish already: it is {before}")

    def place_of(self, wish: Wish) -> Tuple[str, str]:
        """Returns the datacenter and the rack of a new node, by their names in the log."""
        if wish.kind == "replace":
            self.id_of(wish.gone)
            return self.places[self.here(wish.gone)]
        if not wish.dc:
            self.id_of(wish.name)
            return self.places[self.here(wish.name)]
        return self.names.choose("datacenter", wish.dc), self.names.choose("rack", wish.rack)

    def parts(self) -> Parts:
        """Returns shares as parts of fair ones, of one keyspace of each replication in each datacenter, by node."""
        nodes, found = self.now().nodes.nodes, {}
        for keyspace in self.same:
            shares = read_shares(self.trial.places([keyspace])[keyspace])
            for dc, group in groups_of(self.replications[keyspace], nodes).items():
                found[keyspace, dc] = parts_of(shares, group)
        return found

    def down_in(self, nodes: Sequence[Node]) -> List[str]:
        """Returns the nodes that are down and in the ring: one that was replaced counts no longer."""
        there = {it.id for it in nodes if it.tokens}
        return [it for it in self.down if self.id_of(it) in there]

    def finish_half_way(self) -> List[Tuple[str, int]]:
        """Finishes the movements that are half way, and returns their kinds and nodes."""
        half_way = [it for it in self.begin.movements if it.phase == "MID"]
        for it in half_way:
            self.trial.commit(f"finish-{it.kind} {it.node}")
        return [(it.kind, it.node) for it in half_way]

    # ---- Waves

    def wave(self, wishes: Sequence[Wish]) -> Wave:
        """Prepares the wishes that can be in flight together, goes through their steps, and finishes them."""
        before, wave = self.now(), Wave()
        wave.down = self.down_in(before.nodes.nodes)
        wave.already = [(it.kind, it.node, it.phase) for it in before.movements]
        moments = [self.look()[0]]
        attempts = [self.attempt(wave, it) for it in wishes]
        if any("LOCKED" in it for it in wave.waiting.values()):
            found = couplings(before, attempts)
            wave.coupled = {it.name: found.get(self.id_of(it.name), []) for it in wishes if it.name in wave.waiting}
        moving = [*wave.already, *((it.kind, self.id_of(it.name), "PREPARED") for it in wave.wishes)]
        self.step("start", moving)
        started, wave.moved = self.look()
        self.step("mid", moving)
        moments += [started, self.look()[0]]
        self.step("finish", moving)
        wave.margins = least(moments)
        return wave

    def look(self) -> Tuple[Dict[Level, Margin], Dict[str, Dict[int, int]]]:
        """Returns the margins now, and by keyspace what is streamed to which node, one keyspace for each replication."""
        margins: Dict[Level, Margin] = {}
        moved: Dict[str, Dict[int, int]] = {}
        for keyspace in self.same:
            self.say(f"looking at {self.names.there('keyspace', keyspace)} at epoch {self.trial.epoch}")
            seen = self.quorums.look(keyspace)
            moved[keyspace] = seen.moved
            margins.update(self.quorums.margins(keyspace, seen))
        return margins, moved

    def attempt(self, wave: Wave, wish: Wish) -> Attempt:
        """Tries to prepare a wish."""
        node = self.id_of(wish.name)
        self.say(f"trying {wish.said}")
        command = command_of(wish, node, self.id_of(wish.gone) if wish.gone else None)
        answer = self.trial.try_commit(command)
        if is_refusal(answer):
            wave.waiting[wish.name] = answer[0]
        else:
            wave.wishes.append(wish)
        return Attempt(command, node, not is_refusal(answer))

    def step(self, step: str, moving: Sequence[Tuple[str, int, str]]) -> None:
        """Takes each movement a step further, unless it was further already."""
        done = {"start": 1, "mid": 2, "finish": 3}[step]
        for kind, node, phase in moving:
            if ORDER[phase] < done:
                self.trial.commit(f"{step}-{kind} {node}")


def plan(log: str, wishes: List[Wish], down: List[str], names: Names, seed: int, say: Say = silent) -> Plan:
    """Tries wishes on a copy of a log, in waves, and returns what was seen; `say` shows how far this is."""
    rest = with_tokens(log, wishes, names, seed, say)
    with copy_of(log) as copy, Session(words_on(copy)) as session:
        planner = Planner(session, copy, names, down, say)
        cluster, before = cluster_of(copy), planner.parts()
        finished = planner.finish_half_way()
        registered = planner.register(wishes)
        rest = [it for it in rest if it.name not in planner.refused]
        waves: List[Wave] = []
        while rest:
            wave = planner.wave(rest)
            if not wave.wishes and not wave.already:
                break
            waves.append(wave)
            rest = [it for it in rest if it not in wave.wishes]
        after, parts, nodes = planner.look()[0], planner.parts(), planner.now().nodes.nodes
        impossible = {**planner.refused, **{it.name: wave.waiting[it.name] for it in rest}}
    node_names = {node: name for name, node in planner.ids.items()}
    registered = [it for it in registered if it[0] not in impossible]
    begin, known = (cluster, planner.begin.epoch), (planner.begin.nodes.nodes, nodes)
    return Plan(
        waves, finished, impossible, registered, node_names, planner.same, after, before, parts, begin, known,
        planner.replications, planner.down_in(nodes)
    )


def with_tokens(log: str, wishes: List[Wish], names: Names, seed: int, say: Say) -> List[Wish]:
    """Returns wishes with tokens for those that leave them open; each movement is gone through on a copy of its own."""
    if not any(it.draws for it in wishes):
        return wishes
    found = []
    with copy_of(log) as copy, Session(words_on(copy)) as session:
        planner = Planner(session, copy, names, [])
        chooser = Chooser(copy, planner.trial, seed)
        chooser.settle_all()
        planner.register(wishes)
        for wish in (it for it in wishes if it.name not in planner.refused):
            node = planner.id_of(wish.name)
            say(f"choosing tokens for {wish.name}")
            tokens = chooser.choose(wish, node, planner.place_of(wish)) if wish.draws else []
            found.append(chosen(wish, tokens) if tokens else wish)
            prepare = command_of(found[-1], node, planner.id_of(wish.gone) if wish.gone else None)
            chooser.settle([prepare, *(f"{step}-{wish.kind} {node}" for step in STEPS[1:])])
    return found
