"""Long scripts that come to the limits of a session: of nodes, tokens, keyspaces, followers, replies and epochs."""
from __future__ import annotations

import random
from typing import Callable, Iterable, Iterator, Sequence

from trials.machine.session import Session
from trials.machine.terms import MOST_EPOCHS, MOST_KEYSPACES, MOST_NODES
from trials.machine.terms import MOST_REPLIES, MOST_TOKENS_OF_NODE, MOST_WAITING

Lines = Iterator[str]
Script = Callable[[random.Random], Lines]


def commits(commands: Iterable[str]) -> Lines:
    """Commits commands, each under the next id."""
    return (f"commit {number} {it}" for number, it in enumerate(commands, 1))


def nodes_full(_: random.Random) -> Lines:
    """Registers as many nodes as there may be, and more."""
    yield from commits(f"register n{it} dc1 r1" for it in range(MOST_NODES + 1))
    for command in ("register n0 dc1 r1", "unregister 5", "register m dc2 r2", "register k dc2 r2"):
        yield f"commit {2**40 + len(command)} {command}"


def token_commands() -> Iterator[str]:
    """Gives all tokens but one to 64 nodes and one node, the last one to another, and asks for one more."""
    most = MOST_TOKENS_OF_NODE
    yield from (f"register n{it} dc1 r1" for it in range(67))
    for node in range(1, 65):
        count = most - (2 if node == 64 else 0)
        yield f"unsafe-join {node} {' '.join(str(node * most + it) for it in range(count))}"
    yield from ("unsafe-join 65 -1", "unsafe-join 66 -2 -3", "prepare-join 66 -2", "prepare-join 67 -3", "cancel 66")
    yield from ("prepare-move 65 -5", "cancel 65", "unsafe-join 66 -2", "prepare-move 65 -5", "unsafe-join 67 -7")


def tokens_full(_: random.Random) -> Lines:
    """Comes to the limit of tokens."""
    return commits(token_commands())


def keyspaces_full(_: random.Random) -> Lines:
    """Makes as many keyspaces as there may be, and more."""
    return commits([*(f"keyspace k{it} simple 1" for it in range(MOST_KEYSPACES + 1)), "keyspace k0 simple 2"])


def followers_full(draw: random.Random) -> Lines:
    """Makes as many followers and replies as there may be, and more."""
    yield from commits(f"register n{it} dc1 r1" for it in range(5))
    yield from (f"follower f{it}" for it in range(18))
    for number in range(MOST_REPLIES + 10):
        yield f"ask f{draw.randrange(17)} {draw.randint(1, 5)}"
        yield f"give f{draw.randrange(17)} {draw.randint(0, number + 2)}"


def toggles(count: int) -> Iterator[str]:
    """Gives commands that are always accepted."""
    return (f"keyspace ks simple {it % 3 + 1}" for it in range(count))


def waiting_full(draw: random.Random) -> Lines:
    """Hands a follower more entries past a gap than may wait, and lets others catch up by states."""
    last = MOST_WAITING + draw.choice((3, 300))
    yield from commits(toggles(last))
    yield from ("follower f", "follower g", "follower h")
    yield from (f"deliver f {it}" for it in range(last, 1, -1))
    yield from ("deliver f 3", "deliver f 1", "nodes f", "deliver f 1027", "nodes f")
    yield from (f"snapshot f {last - 2}", "nodes f")
    for _ in range(12):
        yield f"ask {draw.choice('fgh')} {draw.choice((1, 5, 100, 256, 1000, 1024))}"
        yield f"give {draw.choice('fgh')} {draw.randint(1, 12)}"


def epochs_full(_: random.Random) -> Lines:
    """Comes to the limit of epochs."""
    yield from commits(toggles(MOST_EPOCHS + 1))
    yield from ("commit 5 keyspace ks simple 9", "commit 1 keyspace ks simple 1", "commit 99999 cancel 7")


SCRIPTS: Sequence[Script] = (nodes_full, tokens_full, keyspaces_full, followers_full, waiting_full)


def lines(draw: random.Random, script: Script) -> Callable[[Session], Iterable[bytes]]:
    """Returns the lines of a script."""
    return lambda session: (it.encode() for it in script(draw))
