"""The data of a page: what `tcm` answered, epoch by epoch, with tokens as texts."""
from __future__ import annotations

import os
import unicodedata
from dataclasses import dataclass, field
from typing import Dict, List, Optional, Sequence, Set, Tuple

from tools.answers import Movement, Node, Nodes, Row
from tools.history import Change, Command, History, Moment
from tools.log import State
from tools.moves import steps_left
from tools.names import Names
from tools.placements import Stretch
from tools.status import replication_said
from tools.streams import STRICT, Streams, Taking, by_node, plan_of, taking_of
from tools.terms import GREATEST, percent, plural

BEFORE_ALL, PAST_ALL = -1, GREATEST + 1  # the place of `min`, and the token that stands for `max`


def visible(name: str) -> str:
    """Returns a name with characters that don't show, or turn what follows, as their numbers."""
    return "".join(f"\\u{{{ord(it):x}}}" if unicodedata.category(it)[0] in "CZ" and it != " " else it for it in name)


@dataclass
class Flight:
    """A movement from its prepare to its end, with what to do in each phase and what it streams."""

    movement: Movement
    steps: Dict[str, List[str]] = field(default_factory=dict)
    streams: List[Tuple[int, Dict[str, List[Tuple[Stretch, Taking]]]]] = field(default_factory=list)


class Data:
    """Takes the moments of a history one after another."""

    def __init__(self, names: Names, history: History, entries: Sequence[bytes], folder: str) -> None:
        self.names, self.history, self.entries, self.folder = names, history, entries, folder
        self.nodes: Dict[int, Node] = {}
        self.moments: List[Moment] = []
        self.flights: List[Flight] = []
        self.in_flight: Dict[int, int] = {}  # by node: the place of its movement among all
        self.phases: List[List[Tuple[int, str]]] = []  # of each moment: its movements with their phases
        self.keyspaces: Dict[str, str] = {}  # for which streams were asked last

    def add(self, moment: Moment) -> None:
        """Adds the next moment."""
        self.moments.append(moment)
        self.nodes.update({it.id: it for it in moment.nodes})
        self.in_flight = {it.node: self.place_of(it) for it in moment.movements}
        self.phases.append([(self.in_flight[it.node], it.phase) for it in moment.movements])
        for movement in moment.movements:
            flight = self.flights[self.in_flight[movement.node]]
            if not flight.streams or moment.keyspaces != self.keyspaces:
                flight.streams.append((moment.epoch, self.streams_of(movement.node, moment)))
            if movement.phase not in flight.steps:
                flight.steps[movement.phase] = self.steps_of(movement, flight, moment.epoch)
        self.keyspaces = moment.keyspaces

    def place_of(self, movement: Movement) -> int:
        """Returns the place of a movement among all, which it gets when it is new."""
        if movement.node not in self.in_flight:
            self.flights.append(Flight(movement))
            return len(self.flights) - 1
        return self.in_flight[movement.node]

    def streams_of(self, node: int, moment: Moment) -> Dict[str, List[Tuple[Stretch, Taking]]]:
        """Returns what a movement streams, by replication."""
        path = os.path.join(self.folder, "prefix.log")
        with open(path, "wb") as it:
            it.writelines(self.entries[: moment.epoch + 1])
        now = self.state(moment.epoch)
        plans = {replication: plan_of(path, node, names[0]) for replication, names in moment.groups.items()}
        return {key: by_node((row, taking_of(row, now, set(), {})) for row in rows) for key, rows in plans.items()}

    def steps_of(self, movement: Movement, flight: Flight, epoch: int) -> List[str]:
        """Returns what is still to be done for a movement."""
        found = [Streams((), rows) for rows in flight.streams[-1][1].values()]
        return [visible(it) for it in steps_left(movement, found, self.state(epoch), self.names)]

    def state(self, epoch: int) -> State:
        """Returns the nodes so far as a state."""
        return State("", Nodes(epoch, tuple(self.nodes.values()), ()))

    # ---- As JSON

    def as_json(self) -> Dict[str, object]:
        """Returns the data as JSON has them."""
        return Json(self).all()


class Json:
    """Writes data as JSON has them; a token is its place among all tokens."""

    def __init__(self, data: Data) -> None:
        self.data = data
        self.tokens = sorted(tokens_in(data))
        self.places: Dict[Optional[int], int] = {it: place for place, it in enumerate(self.tokens)}
        self.places[None] = len(self.tokens) - 1
        self.groups = {it: place for place, it in enumerate(data.history.replicas)}

    def all(self) -> Dict[str, object]:
        """Returns all of it."""
        pairs = zip(self.data.moments, self.data.phases)
        return {
            "tokens": [*map(str, self.tokens[:-1]), "max"],
            "nodes": [[it.id, *self.named(it)] for it in self.data.nodes.values()],
            "groups": [self.group(it) for it in self.data.history.replicas],
            "movements": [self.flight(it) for it in self.data.flights],
            "epochs": [self.epoch(moment, phases) for moment, phases in pairs],
        }

    def there(self, kind: str, name: str) -> str:
        """Returns a name of Cassandra as it can be shown."""
        return visible(self.data.names.there(kind, name))

    def named(self, node: Node) -> List[str]:
        """Returns the names of a node, its datacenter and its rack."""
        return [self.there("node", node.name), self.there("datacenter", node.dc), self.there("rack", node.rack)]

    def group(self, replication: str) -> Dict[str, object]:
        """Returns a replication with its levels, and the sets of nodes with their needs."""
        replicas = self.data.history.replicas[replication]
        levels = [it.partition(" ") for it in replicas.levels]
        pending = [[it for it in writes if it not in reads] for reads, writes in replicas.sets]
        return {
            "replication": visible(replication_said(replication, self.data.names)),
            "levels": [f"{said} {self.there('datacenter', dc)}".strip() for said, _, dc in levels],
            "sets": [
                [reads, extra, needs] for (reads, _), extra, needs in zip(replicas.sets, pending, replicas.needs_of)
            ],
            "needs": list(replicas.needs),
        }

    def flight(self, flight: Flight) -> Dict[str, object]:
        """Returns a movement."""
        it = flight.movement
        gone = it.outgoing[0][1] if it.kind == "replace" else None
        return {
            "node": it.node,
            "kind": it.kind,
            "gone": gone,
            "out": [self.places[token] for token, _ in it.outgoing],
            "in": [self.places[token] for token, _ in it.incoming],
            "steps": flight.steps,
            "streams": [[epoch, self.streams(found)] for epoch, found in flight.streams],
        }

    def streams(self, found: Dict[str, List[Tuple[Stretch, Taking]]]) -> List[object]:
        """Returns what a movement streams, by replication: the share of the ring, and the ranges."""
        return [
            [self.groups[it], percent(sum(range_.width for range_, _ in rows)), [self.range(*row) for row in rows]]
            for it, rows in found.items()
        ]

    def range(self, it: Stretch, taking: Taking) -> List[object]:
        """Returns a range that is streamed; it goes on past `max` if it ends before it begins."""
        left = BEFORE_ALL if it.left is None else self.places[it.left]
        return [left, self.places[it.right], percent(it.width), taking.to, taking.sources, int(taking.kind == STRICT)]

    def epoch(self, moment: Moment, phases: List[Tuple[int, str]]) -> Dict[str, object]:
        """Returns an epoch."""
        changes = {self.groups[it]: change for it, change in moment.changes.items()}
        return {
            "epoch": moment.epoch,
            "said": self.said(moment.command),
            "nodes": [[it.id, it.state, [self.places[token] for token in it.tokens]] for it in moment.nodes],
            "gone": moment.gone,
            "movements": phases,
            "keyspaces": [
                [self.groups[it], [self.there("keyspace", name) for name in names]]
                for it, names in moment.groups.items()
            ],
            "rows": {it: self.rows(change) for it, change in changes.items()},
            "shares": {it: shares_said(change) for it, change in changes.items()},
            "margins": {it: change.margins for it, change in changes.items()},
        }

    def rows(self, change: Change) -> List[int]:
        """Returns the ends of rows that differ, each with the place of its set, -1 where no row ends any more."""
        ends = {self.places[it.right]: -1 for it in change.gone}
        ends.update({self.places[it.right]: self.set_of(change, it) for it in change.came})
        return [it for end in sorted(ends.items()) for it in end]

    def set_of(self, change: Change, row: Row) -> int:
        """Returns the place of the nodes of a row."""
        return self.data.history.replicas[change.replication].sets[row.reads, row.writes]

    def said(self, command: Command) -> str:
        """Returns a command in words, by the names of Cassandra."""
        kind = command.get("kind", "")
        if kind == "register":
            keys = (("node", "name"), ("datacenter", "dc"), ("rack", "rack"))
            rest = [self.there(of, command[key]) for of, key in keys]
        elif kind in ("keyspace", "drop-keyspace"):
            replication = visible(replication_said(command.get("replication", ""), self.data.names))
            rest = [self.there("keyspace", command["name"]), replication]
        else:
            ids = [command[it] for it in ("node", "gone") if it in command]
            rest = [self.there("node", self.data.nodes[it].name) if it in self.data.nodes else str(it) for it in ids]
            tokens = command.get("tokens", [command["token"]] if "token" in command else [])
            rest += [str(it) for it in tokens] if len(tokens) < 2 else [f"({plural(len(tokens), 'token')})"]
        return " ".join([kind, *rest]).strip()


def shares_said(change: Change) -> List[List[object]]:
    """Returns nodes with their shares."""
    return [[node, *map(share_said, shares)] for node, shares in change.shares.items()]


def share_said(tokens: int) -> str:
    """Returns a share of the ring, nothing where there is none."""
    return percent(tokens) if tokens else ""


def tokens_in(data: Data) -> Set[int]:
    """Returns all tokens at which rows end or nodes stand, with the one past all for `max`."""
    found = {PAST_ALL}
    for moment in data.moments:
        found.update(token for it in moment.nodes for token in it.tokens)
        found.update(token for it in moment.movements for token, _ in (*it.outgoing, *it.incoming))
        for change in moment.changes.values():
            found.update(it.right for it in change.came if it.right is not None)
    return found
