"""Commands, refusals and what commands do."""
from __future__ import annotations

from dataclasses import replace
from typing import Callable, Dict, Iterator, Optional, Sequence

from trials.machine.commands import Command
from trials.machine.image import MID, PREPARED, STARTED, STEPS, Image, Keyspace, Movement, Node, applied, pair_list
from trials.machine.ranges import lock_on, overlap_under
from trials.machine.terms import (
    MOST_EPOCHS,
    MOST_KEYSPACES,
    MOST_NODES,
    MOST_TOKENS,
    Replication,
    end_text,
)

Refusals = Iterator[Optional[str]]
NEEDS = {"prepare-move": ("JOINED",), "prepare-leave": ("JOINED",), "unregister": ("REGISTERED", "LEFT")}


def no_node(image: Image, *ids: int) -> Optional[str]:
    """Refuses ids of which no node is registered."""
    return None if all(image.node(it) for it in ids) else "NO-NODE"


def in_sequence(image: Image, *ids: int) -> Optional[str]:
    """Refuses nodes that take part in a movement, the first of them first."""
    for node in ids:
        for movement in image.movements:
            if movement.takes_part(node):
                return f"IN-SEQUENCE {movement.node}"
    return None


def node_state(image: Image, command: Command) -> Optional[str]:
    """Refuses a node in a state that the command doesn't go on from."""
    state = image.state_of(image.by_id[command.node])
    return None if state in NEEDS.get(command.word, ("REGISTERED",)) else f"NODE-STATE {state}"


def tokens_refused(image: Image, tokens: Sequence[int]) -> Optional[str]:
    """Refuses tokens that are taken, or too many."""
    there = set(image.cuts)
    taken = [it for it in tokens if it in there]
    if taken:
        return f"TOKEN-TAKEN {min(taken)}"
    return "TOKENS-FULL" if len(there) + len(tokens) > MOST_TOKENS else None


def leaves_too_few(image: Image, replication: Replication, node: Node) -> bool:
    """Returns whether a group of a node has no more nodes with tokens than replicas."""
    having = {it for _, it in image.tokens}
    return any(
        len([it for it in having if image.by_id[it].is_in(group)]) <= group.factor
        for group in replication.groups
        if node.is_in(group)
    )


def locked(image: Image, command: Command) -> Optional[str]:
    """Refuses a movement that overlaps others, in the image that has it."""
    new = movement_of(image, command)
    lock = lock_on(image.with_movement(new), new.node)
    return None if lock is None else f"LOCKED {lock[0]} {end_text(lock[1])}"


def register(image: Image, command: Command) -> Refusals:
    """The refusals of `register`, in their order."""
    yield next((f"NAME-TAKEN {it.id}" for it in image.nodes if it.name == command.name), None)
    yield "NODES-FULL" if len(image.nodes) >= MOST_NODES else None


def unregister(image: Image, command: Command) -> Refusals:
    """The refusals of `unregister`."""
    yield no_node(image, command.node)
    yield in_sequence(image, command.node)
    yield node_state(image, command)


def unsafe_join(image: Image, command: Command) -> Refusals:
    """The refusals of `unsafe-join`."""
    yield from unregister(image, command)
    yield f"NOT-IDLE {image.movements[0].node}" if image.movements else None
    yield tokens_refused(image, command.tokens)


def prepare_join(image: Image, command: Command) -> Refusals:
    """The refusals of `prepare-join`."""
    yield from unregister(image, command)
    yield tokens_refused(image, command.tokens)
    yield locked(image, command)


def prepare_move(image: Image, command: Command) -> Refusals:
    """The refusals of `prepare-move`."""
    yield from unregister(image, command)
    count = len(image.tokens_of(command.node))
    yield f"NOT-ONE-TOKEN {count}" if count != 1 else None
    yield tokens_refused(image, command.tokens)
    yield locked(image, command)


def prepare_leave(image: Image, command: Command) -> Refusals:
    """The refusals of `prepare-leave`."""
    yield from unregister(image, command)
    node = image.by_id[command.node]
    few = [it.name for it in image.keyspaces if leaves_too_few(image, it.replication, node)]
    yield f"TOO-FEW-NODES {few[0]}" if few else None
    yield locked(image, command)


def prepare_replace(image: Image, command: Command) -> Refusals:
    """The refusals of `prepare-replace`."""
    yield no_node(image, command.node, command.gone)
    yield in_sequence(image, command.node, command.gone)
    yield node_state(image, command)
    node, gone = image.by_id[command.node], image.by_id[command.gone]
    yield None if image.tokens_of(gone.id) else "NO-TOKENS"
    yield None if (node.dc, node.rack) == (gone.dc, gone.rack) else f"OTHER-RACK {gone.dc} {gone.rack}"
    yield locked(image, command)


def step(image: Image, command: Command) -> Refusals:
    """The refusals of a step."""
    yield from cancel(image, command)
    movement = image.movement(command.node)
    assert movement is not None
    word, kind = command.word.split("-")
    fits = movement.kind == kind and movement.phase == STEPS[word][0]
    yield None if fits else f"WRONG-STEP {movement.kind} {movement.phase}"


def cancel(image: Image, command: Command) -> Refusals:
    """The refusals of `cancel`."""
    yield no_node(image, command.node)
    yield None if image.movement(command.node) else "NO-SEQUENCE"


def keyspace(image: Image, command: Command) -> Refusals:
    """The refusals of `keyspace`."""
    assert command.replication is not None
    is_new = image.keyspace(command.name) is None
    yield "KEYSPACES-FULL" if is_new and len(image.keyspaces) >= MOST_KEYSPACES else None
    leaving = [image.by_id[it.node] for it in image.movements if it.kind == "leave"]
    too_few = any(leaves_too_few(image, command.replication, it) for it in leaving)
    yield f"TOO-FEW-NODES {command.name}" if too_few else None
    overlap = overlap_under(image, command.replication)
    yield None if overlap is None else f"KEYSPACE-LOCKED {overlap[0]} {overlap[1]} {end_text(overlap[2])}"


def drop_keyspace(image: Image, command: Command) -> Refusals:
    """The refusals of `drop-keyspace`."""
    yield None if image.keyspace(command.name) else "NO-KEYSPACE"


REFUSALS: Dict[str, Callable[[Image, Command], Refusals]] = {
    "register": register,
    "unregister": unregister,
    "unsafe-join": unsafe_join,
    "keyspace": keyspace,
    "drop-keyspace": drop_keyspace,
    "prepare-join": prepare_join,
    "prepare-move": prepare_move,
    "prepare-leave": prepare_leave,
    "prepare-replace": prepare_replace,
    "cancel": cancel,
}


def commit_refusal(image: Image, command: Command) -> Optional[str]:
    """Returns the first refusal of a command. The limit of epochs comes first."""
    if image.epoch >= MOST_EPOCHS:
        return "EPOCHS-FULL"
    refusals = REFUSALS.get(command.word, step)(image, command)
    return next((it for it in refusals if it is not None), None)


def movement_of(image: Image, command: Command) -> Movement:
    """Returns the movement that a prepare begins."""
    node, kind = command.node, command.word[len("prepare-") :]
    gone = command.gone if kind == "replace" else node
    out = tuple(it for it in image.tokens if it[1] == gone)
    tokens = [token for token, _ in out] if kind == "replace" else command.tokens
    return Movement(node, kind, PREPARED, out, pair_list((it, node) for it in tokens))


def finished(image: Image, movement: Movement) -> Image:
    """Returns the image after a movement is finished: the ring changes, and who left has left."""
    gone = {it for _, it in movement.out} if movement.kind in ("leave", "replace") else set()
    nodes = tuple(replace(it, left=True) if it.id in gone else it for it in image.nodes)
    return replace(ended(image, movement), nodes=nodes, tokens=applied(image.tokens, [movement]))


def ended(image: Image, movement: Movement) -> Image:
    """Returns the image without a movement."""
    return replace(image, movements=tuple(it for it in image.movements if it.node != movement.node))


def stepped(image: Image, command: Command) -> Image:
    """Returns the image after a step or a cancel."""
    movement = image.movement(command.node)
    assert movement is not None
    if command.word == "cancel":
        is_mid = movement.phase == MID
        return image.with_movement(replace(movement, phase=STARTED)) if is_mid else ended(image, movement)
    phase = STEPS[command.word.split("-")[0]][1]
    return image.with_movement(replace(movement, phase=phase)) if phase else finished(image, movement)


def changed(image: Image, command: Command) -> Image:
    """Returns what a command makes of an image, but for the epoch."""
    word = command.word
    if word == "register":
        node = Node(image.next, command.name, command.dc, command.rack)
        return replace(image, next=image.next + 1, nodes=(*image.nodes, node))
    if word == "unregister":
        return replace(image, nodes=tuple(it for it in image.nodes if it.id != command.node))
    if word == "unsafe-join":
        pairs = [(it, command.node) for it in command.tokens]
        return replace(image, tokens=pair_list([*image.tokens, *pairs]))
    if word == "keyspace":
        assert command.replication is not None
        return image.with_keyspace(Keyspace(command.name, command.replication))
    if word == "drop-keyspace":
        return replace(image, keyspaces=tuple(it for it in image.keyspaces if it.name != command.name))
    if word.startswith("prepare-"):
        return image.with_movement(movement_of(image, command))
    return stepped(image, command)


def next_image(image: Image, command: Command) -> Image:
    """Returns the image after a command that isn't refused."""
    return replace(changed(image, command), epoch=image.epoch + 1)
