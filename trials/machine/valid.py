"""Valid images: the 18 rules, and the value that the first broken one shows."""
from __future__ import annotations

from typing import Callable, Iterator, List, Optional, Sequence, Tuple, Union

from trials.machine.image import Image, Movement
from trials.machine.ranges import overlapping
from trials.machine.terms import MOST_EPOCHS, MOST_KEYSPACES, MOST_NODES, MOST_TOKENS, MOST_TOKENS_OF_NODE

Value = Union[int, str]
Broken = Iterator[Value]  # the values at the places that break a rule, in the order of the lists


def not_above(items: Sequence[int], least: int) -> Iterator[int]:
    """Gives each item that isn't above the one before it, or the first, if it isn't above the least."""
    for before, it in zip([least, *items], items):
        if it <= before:
            yield it


def rule_1(image: Image) -> Broken:
    """Nodes are few enough."""
    if len(image.nodes) > MOST_NODES:
        yield len(image.nodes)


def rule_2(image: Image) -> Broken:
    """Ids of nodes ascend from 1 on."""
    return not_above([it.id for it in image.nodes], 0)


def rule_3(image: Image) -> Broken:
    """Ids of nodes are below the next one."""
    return (it.id for it in image.nodes if it.id >= image.next)


def rule_4(image: Image) -> Broken:
    """Nodes have names of their own."""
    names = [it.name for it in image.nodes]
    return (it.id for at, it in enumerate(image.nodes) if it.name in names[:at])


def rule_5(image: Image) -> Broken:
    """The epoch is within its limit."""
    if image.epoch > MOST_EPOCHS:
        yield image.epoch


def rule_6(image: Image) -> Broken:
    """The next id isn't 0, nor above the epoch plus 1."""
    if not 1 <= image.next <= image.epoch + 1:
        yield image.next


def rule_7(image: Image) -> Broken:
    """Tokens ascend."""
    return (it for before, it in zip(all_tokens(image), all_tokens(image)[1:]) if it <= before)


def rule_8(image: Image) -> Broken:
    """Tokens are of nodes that stand."""
    return (token for token, node in image.tokens if not is_standing(image, node))


def rule_9(image: Image) -> Broken:
    """A node has few enough tokens."""
    return (it.id for it in image.nodes if len(image.tokens_of(it.id)) > MOST_TOKENS_OF_NODE)


def rule_10(image: Image) -> Broken:
    """Keyspaces are few enough."""
    if len(image.keyspaces) > MOST_KEYSPACES:
        yield len(image.keyspaces)


def rule_11(image: Image) -> Broken:
    """Names of keyspaces ascend."""
    names = [it.name for it in image.keyspaces]
    return (at for at in range(1, len(names)) if names[at] <= names[at - 1])


def rule_12(image: Image) -> Broken:
    """Nodes of movements ascend."""
    nodes = [it.node for it in image.movements]
    return (it for before, it in zip(nodes, nodes[1:]) if it <= before)


def rule_13(image: Image) -> Broken:
    """Nodes of movements stand."""
    return (it.node for it in image.movements if not is_standing(image, it.node))


def rule_14(image: Image) -> Broken:
    """Pairs of movements fit their kinds."""
    return (it.node for it in image.movements if not fits(image, it))


def rule_15(image: Image) -> Broken:
    """No node takes part in two movements."""
    for at, it in enumerate(image.movements):
        nodes = [it.node, *(node for _, node in it.out)]
        if any(other.takes_part(node) for other in image.movements[:at] for node in nodes):
            yield it.node


def rule_16(image: Image) -> Broken:
    """Tokens that a join or a move puts in are new."""
    taken = set(all_tokens(image))
    for it in image.movements:
        if it.kind in ("join", "move"):
            yield from (token for token, _ in it.into if token in taken)
        taken.update(token for token, _ in it.into)


def rule_17(image: Image) -> Broken:
    """Tokens are few enough, with those that movements put in."""
    if len(image.cuts) > MOST_TOKENS:
        yield len(image.cuts)


def rule_18(image: Image) -> Broken:
    """Movements don't overlap."""
    node = overlapping(image)
    if node is not None:
        yield node


def all_tokens(image: Image) -> List[int]:
    """Returns the tokens of the pairs, in their order."""
    return [token for token, _ in image.tokens]


def is_standing(image: Image, node: int) -> bool:
    """Returns whether a node is registered and hasn't left."""
    found = image.node(node)
    return found is not None and not found.left


def fits(image: Image, it: Movement) -> bool:
    """Returns whether the pairs of a movement fit its kind."""
    own = tuple(pair for pair in image.tokens if pair[1] == it.node)
    brings = len(it.into) > 0 and all(node == it.node for _, node in it.into)
    if any(one[0] >= other[0] for one, other in zip(it.into, it.into[1:])):
        return False
    if it.kind == "join":
        return not it.out and brings and len(it.into) <= MOST_TOKENS_OF_NODE and not own
    if it.kind == "move":
        return it.out == own and len(own) == 1 and brings and len(it.into) == 1
    if it.kind == "leave":
        return it.out == own and len(own) > 0 and not it.into
    return not own and replaces(image, it)


def replaces(image: Image, it: Movement) -> bool:
    """Returns whether a movement takes out all pairs of a node in its rack, and puts in their tokens."""
    if not it.out or it.into != tuple((token, it.node) for token, _ in it.out):
        return False
    gone, node = image.node(it.out[0][1]), image.node(it.node)
    if gone is None or node is None or gone is node:
        return False
    out = tuple(pair for pair in image.tokens if pair[1] == gone.id)
    return it.out == out and (gone.dc, gone.rack) == (node.dc, node.rack)


RULES: Tuple[Callable[[Image], Broken], ...] = (
    rule_1,
    rule_2,
    rule_3,
    rule_4,
    rule_5,
    rule_6,
    rule_7,
    rule_8,
    rule_9,
    rule_10,
    rule_11,
    rule_12,
    rule_13,
    rule_14,
    rule_15,
    rule_16,
    rule_17,
    rule_18,
)


def bad_of(image: Image) -> Optional[str]:
    """Returns the first rule that an image breaks, and its value at the first place that breaks it."""
    for number, rule in enumerate(RULES, 1):
        for value in rule(image):
            return f"IMAGE {number} {value}"
    return None
