"""The states of a log from one epoch to the next, as differences: a follower of `tcm` takes entry after entry."""
from __future__ import annotations

from collections import Counter
from dataclasses import dataclass, field
from typing import Any, Dict, Iterator, List, Sequence, Set, Tuple

from tools.answers import Movement, Node, Quorum, Row, is_refusal, read_movement, read_node, read_quorum, read_row
from tools.errors import Refused
from tools.margins import levels_of
from tools.program import Session
from tools.terms import GREATEST

FOLLOWER = "page"

Command = Dict[str, Any]  # as a log file has it
Spare = Tuple[int, int, int, int]  # of a level: the need of reads and their nodes, the need of writes and their nodes
Needs = Tuple[Spare, ...]  # of each level of a keyspace

Sets = Tuple[Tuple[int, ...], Tuple[int, ...]]  # the nodes that are read, and those that are written


class Replicas:
    """Who is read and written in each range under one replication; `sets` and `needs` only grow."""

    def __init__(self, replication: str) -> None:
        self.replication = replication
        self.levels = [level for (_, level), _ in levels_of("", replication)]
        self.lines: Set[str] = set()
        self.sets: Dict[Sets, int] = {}
        self.needs: Dict[Needs, int] = {}
        self.needs_of: List[int] = []  # of each set
        self.counts: Counter[int] = Counter()  # the rows that have these needs
        self.read: Dict[int, int] = {}  # by node: the tokens at which it is read
        self.pending: Dict[int, int] = {}  # and those at which it is written and not read

    def take(self, answer: Sequence[str]) -> Tuple[List[Row], List[Row]]:
        """Takes the next answer to `place`, and returns the rows that are gone and those that came."""
        lines = set(answer[1:])
        gone, came = self.lines - lines, lines - self.lines
        self.lines = lines
        return [read_row(it, 0) for it in gone], [read_row(it, 0) for it in came]

    def learn(self, session: Session, keyspace: str, rows: Sequence[Row]) -> None:
        """Asks for the quorums of sets that weren't seen before."""
        new: Dict[Sets, int] = {}
        for row in rows:
            if (row.reads, row.writes) not in self.sets:
                new.setdefault((row.reads, row.writes), GREATEST if row.right is None else row.right)
        heads = [head.replace("@{epoch}", FOLLOWER) for _, head in levels_of(keyspace, self.replication)]
        answers = session.ask_all([f"{head} {token}" for token in new.values() for head in heads])
        for i, sets in enumerate(new):
            found = answers[i * len(heads) : (i + 1) * len(heads)]
            needs = tuple(spare_of(read_quorum(it[0])) for it in found)
            self.sets[sets] = len(self.sets)
            self.needs_of.append(self.needs.setdefault(needs, len(self.needs)))

    def count(self, rows: Sequence[Row], by: int) -> None:
        """Adds rows, or takes them out."""
        for row in rows:
            self.counts[self.needs_of[self.sets[row.reads, row.writes]]] += by
            for node in row.writes:
                shares = self.read if node in row.reads else self.pending
                shares[node] = shares.get(node, 0) + by * row.width

    def shares(self, node: int) -> Tuple[int, int]:
        """Returns at how many tokens a node is read, and at how many it is written and not read."""
        return self.read.get(node, 0), self.pending.get(node, 0)

    def margins(self) -> List[Tuple[int, int]]:
        """Returns for each level what reads and writes have past their need at the row where they have the least."""
        present = [needs for needs, i in self.needs.items() if self.counts[i]]
        return [
            (min(it[i][1] - it[i][0] for it in present), min(it[i][3] - it[i][2] for it in present))
            for i in range(len(self.levels))
        ]


def spare_of(quorum: Quorum) -> Spare:
    """Returns the needs of a quorum, each with the number of nodes that it counts."""
    return quorum.read_need, len(quorum.reads), quorum.write_need, len(quorum.writes)


@dataclass
class Change:
    """What an epoch changes under one replication; a share is of tokens read, and of tokens written and not read."""

    replication: str
    gone: List[Row]
    came: List[Row]
    shares: Dict[int, Tuple[int, int]]
    margins: List[Tuple[int, int]]


@dataclass
class Moment:
    """An epoch: its keyspaces and movements, and what differs from the epoch before."""

    epoch: int
    command: Command
    keyspaces: Dict[str, str]  # with their replications
    nodes: List[Node] = field(default_factory=list)
    gone: List[int] = field(default_factory=list)
    movements: List[Movement] = field(default_factory=list)
    changes: Dict[str, Change] = field(default_factory=dict)  # by replication

    @property
    def groups(self) -> Dict[str, List[str]]:
        """The keyspaces of each replication."""
        found: Dict[str, List[str]] = {}
        for name in sorted(self.keyspaces):
            found.setdefault(self.keyspaces[name], []).append(name)
        return found


class History:
    """Goes through the epochs of a log; `commands` are those of all its entries."""

    def __init__(self, session: Session, commands: Sequence[Command]) -> None:
        self.session, self.commands = session, commands
        self.replicas: Dict[str, Replicas] = {}
        self.nodes: Dict[int, str] = {}  # by id: the line of a node

    def moments(self, first: int) -> Iterator[Moment]:
        """Gives each epoch from the first one on, which differs from nothing."""
        self.ask(f"follower {FOLLOWER}")
        keyspaces: Dict[str, str] = {}
        for command in self.commands[:first]:
            keyspaces = keyspaces_after(keyspaces, command)
        if first:
            self.ask(f"snapshot {FOLLOWER} {first}")
        yield self.moment(first, keyspaces)
        for epoch in range(first + 1, len(self.commands) + 1):
            self.ask(f"deliver {FOLLOWER} {epoch}")
            keyspaces = keyspaces_after(keyspaces, self.commands[epoch - 1])
            yield self.moment(epoch, keyspaces)

    def ask(self, line: str) -> None:
        """Sends a line that has to be accepted."""
        answer = self.session.ask(line)
        if is_refusal(answer):
            raise Refused(f"tcm refuses `{line}`: {answer[0]}")

    def moment(self, epoch: int, keyspaces: Dict[str, str]) -> Moment:
        """Returns what the follower shows now."""
        found = Moment(epoch, self.commands[epoch - 1] if epoch else {}, keyspaces)
        firsts = {replication: names[0] for replication, names in found.groups.items()}
        nodes, *places = self.session.ask_all(
            [f"nodes {FOLLOWER}", *(f"place {FOLLOWER} {it}" for it in firsts.values())]
        )
        self.take_nodes(found, nodes)
        for (replication, keyspace), answer in zip(firsts.items(), places):
            found.changes[replication] = self.change(replication, keyspace, answer)
        return found

    def take_nodes(self, moment: Moment, answer: Sequence[str]) -> None:
        """Takes the answer to `nodes`."""
        count = int(answer[0].split()[2])
        lines = {int(it.split(" ", 1)[0]): it for it in answer[1 : 1 + count]}
        moment.nodes = [read_node(it, 0) for node, it in lines.items() if self.nodes.get(node) != it]
        moment.gone = [it for it in self.nodes if it not in lines]
        moment.movements = [read_movement(it, 0) for it in answer[1 + count :]]
        self.nodes = lines

    def change(self, replication: str, keyspace: str, answer: Sequence[str]) -> Change:
        """Takes the answer to `place` under a replication."""
        replicas = self.replicas.setdefault(replication, Replicas(replication))
        gone, came = replicas.take(answer)
        replicas.learn(self.session, keyspace, came)
        before = {node: replicas.shares(node) for row in (*gone, *came) for node in row.writes}
        replicas.count(gone, -1)
        replicas.count(came, 1)
        after = {node: replicas.shares(node) for node in sorted(before)}
        shares = {node: it for node, it in after.items() if it != before[node]}
        return Change(replication, gone, came, shares, replicas.margins())


def keyspaces_after(keyspaces: Dict[str, str], command: Command) -> Dict[str, str]:
    """Returns the keyspaces with their replications after a command."""
    if command["kind"] == "keyspace":
        return {**keyspaces, command["name"]: command["replication"]}
    if command["kind"] == "drop-keyspace":
        return {name: it for name, it in keyspaces.items() if name != command["name"]}
    return keyspaces
