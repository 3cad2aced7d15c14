"""States in files, drawn so that each rule of valid images is broken."""
from __future__ import annotations

import random
from dataclasses import replace
from typing import Callable, Sequence, TypeVar

from trials.machine.image import KINDS, PHASES, Image, Keyspace, Movement, Node
from trials.machine.terms import GREATEST, LEAST, MOST_EPOCHS, Group, Replication, Ring

Way = Callable[[random.Random, Image], Image]
Item = TypeVar("Item")


def mixed(draw: random.Random, items: Sequence[Item]) -> Sequence[Item]:
    """Returns items with two exchanged, one doubled or one less."""
    found = list(items)
    if not found:
        return found
    at, to = draw.randrange(len(found)), draw.randrange(len(found))
    way = draw.randrange(3)
    if way == 0:
        found[at], found[to] = found[to], found[at]
    elif way == 1:
        found.insert(to, found[at])
    else:
        del found[at]
    return found


def a_node(draw: random.Random, image: Image) -> int:
    """Returns the id of a node, mostly of one that is there."""
    if image.nodes and draw.random() < 0.8:
        return draw.choice(image.nodes).id
    return draw.choice((0, image.next, image.next + 1, 2**32 - 1))


def a_token(draw: random.Random, image: Image) -> int:
    """Returns a token, some of them of the ring."""
    if image.cuts and draw.random() < 0.3:
        return draw.choice(image.cuts)
    return draw.choice((LEAST, GREATEST, draw.randint(-130, 130), draw.randint(LEAST, GREATEST)))


def nodes_mixed(draw: random.Random, image: Image) -> Image:
    """Mixes the nodes."""
    return replace(image, nodes=tuple(mixed(draw, image.nodes)))


def node_changed(draw: random.Random, image: Image) -> Image:
    """Changes a node: its id, its name, its rack, or whether it has left."""
    if not image.nodes:
        return image
    at, node = draw.randrange(len(image.nodes)), draw.choice(image.nodes)
    other = (
        replace(node, id=a_node(draw, image)),
        replace(node, name=draw.choice(image.nodes).name),
        replace(node, rack="r9"),
        replace(node, left=not node.left),
    )
    return replace(image, nodes=(*image.nodes[:at], draw.choice(other), *image.nodes[at + 1 :]))


def numbers_changed(draw: random.Random, image: Image) -> Image:
    """Changes the epoch or the next id."""
    if draw.random() < 0.5:
        return replace(image, epoch=draw.choice((0, image.epoch + 5, MOST_EPOCHS, MOST_EPOCHS + 1, 2**64 - 1)))
    return replace(image, next=draw.choice((0, image.next - 1, image.next + 1, image.epoch + 1, image.epoch + 2)))


def tokens_changed(draw: random.Random, image: Image) -> Image:
    """Changes the pairs of the ring."""
    if draw.random() < 0.5:
        return replace(image, tokens=tuple(mixed(draw, image.tokens)))
    pairs = {**dict(image.tokens), a_token(draw, image): a_node(draw, image)}
    return replace(image, tokens=tuple(sorted(pairs.items())))


def keyspaces_changed(draw: random.Random, image: Image) -> Image:
    """Mixes the keyspaces, or adds one."""
    if draw.random() < 0.5:
        return replace(image, keyspaces=tuple(mixed(draw, image.keyspaces)))
    replication = Replication((Group(draw.choice((None, "dc1", "dc2")), draw.randint(1, 4)),))
    return image.with_keyspace(Keyspace(draw.choice(("a", "ks", "z")), replication))


def pairs_drawn(draw: random.Random, image: Image, node: int) -> Ring:
    """Draws pairs of a movement."""
    pairs = [(a_token(draw, image), node) for _ in range(draw.choice((0, 1, 1, 2)))]
    return tuple(sorted(pairs) if draw.random() < 0.9 else pairs)


def movement_added(draw: random.Random, image: Image) -> Image:
    """Adds a movement, which mostly fits its kind."""
    node, kind, gone = a_node(draw, image), draw.choice(KINDS), a_node(draw, image)
    own = tuple(it for it in image.tokens if it[1] == (gone if kind == "replace" else node))
    out = () if kind == "join" else own
    into = pairs_drawn(draw, image, node)
    if kind in ("leave", "replace"):
        into = tuple((token, node) for token, _ in own) if kind == "replace" else ()
    movement = Movement(node, kind, draw.choice(PHASES), out, into)
    if draw.random() < 0.2:
        return replace(image, movements=(*image.movements, movement))
    return image.with_movement(movement)


def movement_shared(draw: random.Random, image: Image) -> Image:
    """Adds a movement by which a node takes part in two: it leaves, or is replaced, while another movement moves it."""
    moving = [it for it in image.movements if it.out]
    if not moving:
        return movement_added(draw, image)
    gone = draw.choice(moving).out[0][1]
    out, there = tuple(it for it in image.tokens if it[1] == gone), image.node(gone)
    free = [it.id for it in image.nodes if not it.left and not image.tokens_of(it.id) and image.movement(it.id) is None]
    near = [it for it in free if there and (image.by_id[it].dc, image.by_id[it].rack) == (there.dc, there.rack)]
    if near and draw.random() < 0.7:
        node = draw.choice(near)
        return image.with_movement(Movement(node, "replace", "PREPARED", out, tuple((token, node) for token, _ in out)))
    return image.with_movement(Movement(gone, "leave", draw.choice(PHASES), out, ()))


def movements_changed(draw: random.Random, image: Image) -> Image:
    """Mixes the movements, or changes one."""
    if not image.movements or draw.random() < 0.4:
        return replace(image, movements=tuple(mixed(draw, image.movements)))
    at = draw.randrange(len(image.movements))
    old = image.movements[at]
    other = (
        replace(old, out=tuple(mixed(draw, old.out))),
        replace(old, into=tuple(mixed(draw, old.into))),
        replace(old, out=pairs_drawn(draw, image, old.node)),
        replace(old, into=pairs_drawn(draw, image, old.node)),
        replace(old, kind=draw.choice(KINDS)),
        replace(old, node=a_node(draw, image)),
        replace(old, phase=draw.choice(PHASES)),
    )
    return replace(image, movements=(*image.movements[:at], draw.choice(other), *image.movements[at + 1 :]))


WAYS: Sequence[Way] = (
    nodes_mixed,
    node_changed,
    numbers_changed,
    tokens_changed,
    keyspaces_changed,
    movement_added,
    movement_added,
    movement_shared,
    movement_shared,
    movements_changed,
)


def state_drawn(draw: random.Random, image: Image) -> Image:
    """Returns a state near an image: many are valid, and others break a rule."""
    for _ in range(draw.choice((0, 1, 1, 1, 2, 3))):
        image = draw.choice(WAYS)(draw, image)
    return image


def nodes_of(count: int, tokens: int) -> Image:
    """Returns an image of so many nodes with so many tokens each."""
    nodes = tuple(Node(it, f"n{it}", "dc1", "r1") for it in range(1, count + 1))
    pairs = tuple((it, it % count + 1) for it in range(count * tokens))
    return Image(count + 1, count + 1, nodes, pairs)


def large_state(draw: random.Random) -> Image:
    """Returns a state at a limit, or past it: of nodes, tokens of a node, tokens or keyspaces."""
    past, way = draw.choice((0, 1, 1)), draw.randrange(4)
    if way == 0:
        return nodes_of(1024 + past, 0)
    if way == 1:
        return nodes_of(3, 256 + past)
    if way == 2:
        return replace(nodes_of(64, 256), movements=(Movement(65, "join", "PREPARED", (), ((-1, 65),)),) * past,
                       nodes=(*nodes_of(65, 0).nodes,), next=66, epoch=66)
    some = Replication((Group(None, 1),))
    return replace(Image(), keyspaces=tuple(Keyspace(f"k{it:03}", some) for it in range(64 + past)))
