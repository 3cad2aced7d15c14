"""Which keyspaces couple movements: the same movements are tried under one keyspace at a time."""
from __future__ import annotations

import re
from dataclasses import dataclass
from itertools import count
from typing import Callable, Dict, Iterator, List, Tuple

from tools.answers import is_refusal
from tools.commits import accepted
from tools.log import State
from tools.program import Session


@dataclass(frozen=True)
class Coupling:
    """Keyspaces of one replication that couple a wish with the movement of a node; a row of both ends at `row_end`."""

    keyspaces: Tuple[str, ...]
    node: int
    row_end: str


@dataclass(frozen=True)
class Attempt:
    """A prepare that was tried, with the ids of its nodes, and whether it was accepted."""

    command: str
    node: int
    accepted: bool


def couplings(now: State, attempts: List[Attempt]) -> Dict[int, List[Coupling]]:
    """Returns what couples each attempt that wasn't accepted, by its node.

    `now` is the state in which the attempts were made, one after another. Its nodes and tokens are set up anew, with
    one keyspace at a time.
    """
    found: Dict[int, List[Coupling]] = {it.node: [] for it in attempts if not it.accepted}
    ids = {node.id: i for i, node in enumerate(now.nodes.nodes, 1)}
    names = {new: old for old, new in ids.items()}
    tries = [*in_flight(now), *attempts]
    with Session() as session:
        numbers = count(1)

        def send(command: str) -> List[str]:
            return session.ask(f"commit {next(numbers)} {command}")

        for epoch, command in enumerate(set_up(now, ids), 1):
            accepted(send(command), epoch)
        for first, keyspaces in now.distinct().items():
            send(f"keyspace {first} {now.replications[first]}")
            for node, other, end in try_all(send, tries, ids):
                found[node].append(Coupling(tuple(keyspaces), names[other], end))
            send(f"drop-keyspace {first}")
    return found


def set_up(now: State, ids: Dict[int, int]) -> Iterator[str]:
    """Gives the commands that set up nodes and tokens anew, with new ids."""
    for node in now.nodes.nodes:
        yield f"register {node.name} {node.dc} {node.rack}"
    for node in now.nodes.nodes:
        if node.tokens:
            yield f"unsafe-join {ids[node.id]} {' '.join(str(it) for it in node.tokens)}"


def in_flight(now: State) -> Iterator[Attempt]:
    """Gives the movements that were in flight already, as attempts."""
    for it in now.movements:
        words = [f"prepare-{it.kind}", str(it.node)]
        if it.kind == "replace":
            words.append(str(it.outgoing[0][1]))
        elif it.kind != "leave":
            words += [str(token) for token, _ in it.incoming]
        yield Attempt(" ".join(words), it.node, True)


def try_all(
    send: Callable[[str], List[str]], tries: List[Attempt], ids: Dict[int, int]
) -> Iterator[Tuple[int, int, str]]:
    """Makes the attempts under the one keyspace, takes them back, and gives those that overlap: what, whom, where."""
    prepared: List[int] = []
    for it in tries:
        answer = send(with_ids(it.command, ids))
        locked = re.fullmatch(r"NO LOCKED (\d+) (\S+)", answer[0])
        if locked and not it.accepted:
            yield it.node, int(locked[1]), locked[2]
        elif not is_refusal(answer) and it.accepted:
            prepared.append(ids[it.node])
        elif not is_refusal(answer):
            send(f"cancel {ids[it.node]}")
    for node in prepared:
        send(f"cancel {node}")


def with_ids(command: str, ids: Dict[int, int]) -> str:
    """Returns a prepare with the new ids of its nodes."""
    words = command.split(" ")
    nodes = 3 if words[0] == "prepare-replace" else 2
    return " ".join([words[0], *(str(ids[int(it)]) for it in words[1:nodes]), *words[nodes:]])
