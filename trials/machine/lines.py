"""Lines of files: what they say, by seven rules, and how the program writes them."""
from __future__ import annotations

from dataclasses import dataclass
from typing import Any, Callable, Dict, List, Optional, Sequence, Union

from trials.machine.commands import FORMS, Command
from trials.machine.follower import Entry
from trials.machine.image import KINDS, PHASES, Image, Keyspace, Movement, Node
from trials.machine.json_text import NoJson, compact, read
from trials.machine.terms import (
    GREATEST,
    IDS,
    LEAST,
    MOST_EPOCHS,
    MOST_FILE_LINE,
    MOST_TOKENS_OF_NODE,
    NODES,
    Ring,
    is_name,
    replication_of,
)

FORMAT = 2


class Broken(Exception):
    """A line that breaks a rule."""

    def __init__(self, rule: int):
        super().__init__(f"LINE {rule}")


@dataclass(frozen=True)
class Header:
    """A header: the cluster that it names."""

    cluster: str


@dataclass(frozen=True)
class Numbered:
    """An entry with its epoch."""

    epoch: int
    entry: Entry


Said = Union[Header, Numbered, Image]


def need(fact: bool, rule: int) -> None:
    """Breaks a rule where a fact doesn't hold."""
    if not fact:
        raise Broken(rule)


def is_whole(value: Any, bound: int, least: int = 0) -> bool:
    """Returns whether a value is a whole number from the least one up to a bound."""
    return isinstance(value, int) and not isinstance(value, bool) and least <= value < bound


def is_token(value: Any) -> bool:
    """Returns whether a value is a token."""
    return is_whole(value, GREATEST + 1, LEAST)


def has_keys(value: Any, keys: Sequence[str]) -> bool:
    """Returns whether a value is an object with just these keys."""
    return isinstance(value, dict) and set(value) == set(keys)


def is_name_value(value: Any) -> bool:
    """Returns whether a value is a name."""
    return isinstance(value, str) and is_name(value)


def is_tokens(value: Any) -> bool:
    """Returns whether a value is a list of 1 to 256 tokens that ascend."""
    if not isinstance(value, list) or not 1 <= len(value) <= MOST_TOKENS_OF_NODE or not all(map(is_token, value)):
        return False
    return all(one < other for one, other in zip(value, value[1:]))


def is_replication(value: Any) -> bool:
    """Returns whether a value is the text of a replication."""
    return isinstance(value, str) and replication_of(value.split(" ")) is not None


VALUES: Dict[str, Callable[[Any], bool]] = {
    "name": is_name_value,
    "dc": is_name_value,
    "rack": is_name_value,
    "node": lambda it: is_whole(it, NODES),
    "gone": lambda it: is_whole(it, NODES),
    "token": is_token,
    "tokens": is_tokens,
    "replication": is_replication,
}


def command_in(value: Any) -> Command:
    """Returns the command of an object, by rule 5."""
    need(isinstance(value, dict) and isinstance(value.get("kind"), str) and value["kind"] in FORMS, 5)
    form = FORMS[value["kind"]]
    need(has_keys(value, ["kind", *form]) and all(VALUES[it](value[it]) for it in form), 5)
    fields = {it: value[it] for it in form if it not in ("token", "tokens", "replication")}
    if "token" in form or "tokens" in form:
        fields["tokens"] = tuple(value["tokens"]) if "tokens" in form else (value["token"],)
    if "replication" in form:
        fields["replication"] = replication_of(value["replication"].split(" "))
    return Command(value["kind"], **fields)


def entry_in(value: Any) -> Numbered:
    """Returns the entry of an object, by rules 4 and 5."""
    need(is_whole(value["entry"], IDS) and is_whole(value["epoch"], MOST_EPOCHS + 1, 1), 4)
    return Numbered(value["epoch"], (value["entry"], command_in(value["command"])))


def header_in(value: Any) -> Header:
    """Returns the header of an object, by rule 7."""
    need(is_name_value(value["cluster"]) and is_whole(value["format"], FORMAT + 1, FORMAT), 7)
    return Header(value["cluster"])


def items_in(value: Any) -> List[Any]:
    """Returns the items of a part that has to be a list."""
    need(isinstance(value, list), 6)
    return list(value)


def pairs_in(value: Any) -> Ring:
    """Returns the pairs of a part."""
    pairs = [items_in(it) for it in items_in(value)]
    need(all(len(it) == 2 and is_token(it[0]) and is_whole(it[1], NODES) for it in pairs), 6)
    return tuple((token, node) for token, node in pairs)


def node_in(value: Any) -> Node:
    """Returns a node of a state."""
    need(has_keys(value, ["dc", "id", "left", "name", "rack"]), 6)
    need(all(is_name_value(value[it]) for it in ("dc", "name", "rack")), 6)
    need(is_whole(value["id"], NODES) and isinstance(value["left"], bool), 6)
    return Node(**value)


def keyspace_in(value: Any) -> Keyspace:
    """Returns a keyspace of a state."""
    need(has_keys(value, ["name", "replication"]), 6)
    need(is_name_value(value["name"]) and is_replication(value["replication"]), 6)
    replication = replication_of(value["replication"].split(" "))
    assert replication is not None
    return Keyspace(value["name"], replication)


def movement_in(value: Any) -> Movement:
    """Returns a movement of a state."""
    need(has_keys(value, ["in", "kind", "node", "out", "phase"]), 6)
    need(is_whole(value["node"], NODES), 6)
    need(value["kind"] in KINDS if isinstance(value["kind"], str) else False, 6)
    need(value["phase"] in PHASES if isinstance(value["phase"], str) else False, 6)
    return Movement(value["node"], value["kind"], value["phase"], pairs_in(value["out"]), pairs_in(value["in"]))


def image_in(value: Any) -> Image:
    """Returns the image of a state, by rule 6. It needn't be valid."""
    need(has_keys(value, ["epoch", "next", "nodes", "tokens", "keyspaces", "sequences"]), 6)
    need(is_whole(value["epoch"], IDS) and is_whole(value["next"], NODES), 6)
    return Image(
        value["epoch"],
        value["next"],
        tuple(map(node_in, items_in(value["nodes"]))),
        pairs_in(value["tokens"]),
        tuple(map(keyspace_in, items_in(value["keyspaces"]))),
        tuple(map(movement_in, items_in(value["sequences"]))),
    )


def reading(line: bytes) -> Said:
    """Returns what a line of a file says, or breaks the first of the rules."""
    need(len(line) <= MOST_FILE_LINE, 1)
    try:
        value = read(line)
    except NoJson as why:
        raise Broken(2) from why
    if has_keys(value, ["cluster", "format"]):
        return header_in(value)
    if has_keys(value, ["command", "entry", "epoch"]):
        return entry_in(value)
    need(has_keys(value, ["snapshot"]), 3)
    return image_in(value["snapshot"])


def header_line(cluster: str) -> bytes:
    """Returns the line of a header."""
    return compact({"cluster": cluster, "format": FORMAT}) + b"\n"


def entry_line(epoch: int, entry: Entry) -> bytes:
    """Returns the line of an entry."""
    return compact({"command": entry[1].object(), "entry": entry[0], "epoch": epoch}) + b"\n"


def movement_object(it: Movement) -> Dict[str, object]:
    """Returns a movement as a state has it."""
    return {"in": it.into, "kind": it.kind, "node": it.node, "out": it.out, "phase": it.phase}


def image_line(image: Image) -> bytes:
    """Returns the line of a state."""
    nodes = [{"dc": it.dc, "id": it.id, "left": it.left, "name": it.name, "rack": it.rack} for it in image.nodes]
    keyspaces = [{"name": it.name, "replication": it.replication.text()} for it in image.keyspaces]
    state = {
        "epoch": image.epoch,
        "next": image.next,
        "nodes": nodes,
        "tokens": image.tokens,
        "keyspaces": keyspaces,
        "sequences": list(map(movement_object, image.movements)),
    }
    return compact({"snapshot": state}) + b"\n"


def whole_lines(data: bytes) -> List[bytes]:
    """Returns the whole lines of a file: bytes after the last line feed are passed over."""
    return data.split(b"\n")[:-1]


def header_cause(said: Said, cluster: Optional[str]) -> Optional[str]:
    """Returns why line 1 of a log is refused: it isn't a header, or not that of the cluster, if one is named."""
    if not isinstance(said, Header):
        return "FORMAT"
    if cluster is not None and said.cluster != cluster:
        return f"CLUSTER {cluster} {said.cluster}"
    return None


def entry_cause(said: Said, epoch: int, epochs: Dict[int, int]) -> Optional[str]:
    """Returns why a further line of a log is refused, but for its command."""
    if isinstance(said, Header):
        return "HEADER"
    if not isinstance(said, Numbered):
        return "NOT-ENTRY"
    if said.epoch != epoch:
        return f"EPOCH {epoch} {said.epoch}"
    if said.entry[0] in epochs:
        return f"ID {said.entry[0]} {epochs[said.entry[0]]}"
    return None
