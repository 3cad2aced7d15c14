"""The answers of `tcm`: how many lines each has, and what they say."""
from __future__ import annotations

import re
from dataclasses import dataclass
from functools import lru_cache
from typing import Iterator, List, Optional, Sequence, Tuple

from tools.errors import Refused
from tools.terms import GREATEST, LEAST, width

N = "[0-9]{1,20}"  # (a token has 19 digits, an id or an epoch 20)
NAMES = "[A-Za-z0-9_.-]+"
IDS = "[0-9,]+|-"
HEAD_PLACE = re.compile(f"PLACE ({N}) ({NAMES}) ({N})")
HEAD_NODES = re.compile(f"NODES ({N}) ({N}) ({N})")
ROW = re.compile(rf"\((min|-?{N}),(max|-?{N})\] read ({IDS}) write ({IDS})")
NODE = re.compile(rf"({N}) (\S+) (\S+) (\S+) ([A-Z_]+) (\S+)")
SEQUENCE = re.compile(rf"SEQ ({N}) (join|move|leave|replace) ([A-Z]+) out (\S+) in (\S+)")
QUORUM = re.compile(f"(?:QUORUM|LOCAL) ({N}) read ({N}) of ({IDS}) write ({N}) of ({IDS})")
HEAD_PLAN = re.compile(f"PLAN ({N}) ({N}) ({NAMES}) ({N})")
STREAM = re.compile(rf"\((min|-?{N}),(max|-?{N})\] to ({N}) (?:from ({N})|any ({IDS}))")
LIST = re.compile(f"-|-?{N}(?:,-?{N})*")
PAIR = re.compile(f"-?{N}@{N}")
FORMS = (  # of the first lines of answers and reports, but for those of `place` and `nodes`
    "OK e",
    "AT k",
    "OLD k",
    "HELD k",
    "FULL k",
    "REPLY I since s entries c",
    "REPLY I image b entries c",
    "QUORUM E read NEED of LIST write NEED of LIST",
    "LOCAL E read NEED of LIST write NEED of LIST",
    "NO ..",
    "REPLAY n at k waiting w full f",
    "REFUSED f l CAUSE",
    "TOO-LARGE 536870912",
)
FORK = re.compile(f"REFUSED {N} {N} FORK {N}")  # two entries follow

Pair = Tuple[int, int]  # a token and its node


@dataclass(frozen=True)
class Node:
    """A row of `nodes`; the tokens are those that it has in the ring."""

    id: int
    name: str
    dc: str
    rack: str
    state: str
    tokens: Tuple[int, ...]


@dataclass(frozen=True)
class Movement:
    """A movement in flight: the pairs that it takes out of the ring, and those that it puts in."""

    node: int
    kind: str
    phase: str
    outgoing: Tuple[Pair, ...]
    incoming: Tuple[Pair, ...]


@dataclass(frozen=True)
class Nodes:
    """The answer to `nodes`."""

    epoch: int
    nodes: Tuple[Node, ...]
    movements: Tuple[Movement, ...]


@dataclass(frozen=True)
class Row:
    """A row of `place`; None is `min` at the left and `max` at the right."""

    left: Optional[int]
    right: Optional[int]
    reads: Tuple[int, ...]
    writes: Tuple[int, ...]

    @property
    def width(self) -> int:
        """How many tokens the row has."""
        return width(self.left, self.right)

    @property
    def pending(self) -> Tuple[int, ...]:
        """The nodes that are written and not read."""
        return tuple(it for it in self.writes if it not in self.reads)


@dataclass(frozen=True)
class Placement:
    """The answer to `place`."""

    epoch: int
    keyspace: str
    rows: Tuple[Row, ...]


@dataclass(frozen=True)
class Quorum:
    """The answer to `quorum` or `local`: needs, and the nodes they count."""

    read_need: int
    reads: Tuple[int, ...]
    write_need: int
    writes: Tuple[int, ...]


@dataclass(frozen=True)
class Stream:
    """A row of `plan`: the node that is added, and the strict source, or the nodes any of which is a source."""

    left: Optional[int]
    right: Optional[int]
    to: int
    strict: Optional[int]
    any: Tuple[int, ...]

    @property
    def width(self) -> int:
        """How many tokens the row has."""
        return width(self.left, self.right)


def pattern_of(form: str) -> str:
    """Returns the pattern of the lines of a form, in which letters and NEED stand for numbers."""
    parts = {"LIST": f"(?:{IDS})", "NEED": N, "CAUSE": ".+", "..": ".+"}
    return " ".join(N if len(it) == 1 else parts.get(it, it) for it in form.split(" "))


OTHER = re.compile("|".join(pattern_of(it) for it in FORMS))


def lines_after(head: str) -> int:
    """Returns how many lines follow the first line of an answer."""
    if FORK.fullmatch(head):
        return 2
    place, nodes = HEAD_PLACE.fullmatch(head), HEAD_NODES.fullmatch(head)
    if place:
        return int(place[3])
    return int(nodes[2]) + int(nodes[3]) if nodes else 0


def is_refusal(answer: Sequence[str]) -> bool:
    """Returns whether an answer is `NO ..`."""
    return answer[0].startswith("NO ")


def framed(lines: Sequence[str]) -> Iterator[Tuple[int, List[str]]]:
    """Gives each answer among some lines, with the number of its first line, from 0."""
    at = 0
    while at < len(lines):
        known = HEAD_PLACE.fullmatch(lines[at]) or HEAD_NODES.fullmatch(lines[at]) or OTHER.fullmatch(lines[at])
        if not known:
            raise Refused(f"line {at + 1} is no answer of tcm: {lines[at][:60]}")
        count = 1 + lines_after(lines[at])
        if at + count > len(lines):
            raise Refused(f"line {at + 1}: the answer has {count - 1} lines more, and only {len(lines) - at - 1} came")
        yield at, list(lines[at : at + count])
        at += count


def read_placement(answer: Sequence[str], at: int = 0) -> Placement:
    """Returns the answer to `place`; `at` is the place of its first line, which messages tell."""
    head = HEAD_PLACE.fullmatch(answer[0])
    if not head:
        raise Refused(f"line {at + 1} is to begin an answer to place: {answer[0][:60]}")
    rows = tuple(read_row(it, at + 1 + i) for i, it in enumerate(answer[1:]))
    check_rows(rows, at + 1)
    return Placement(int(head[1]), head[2], rows)


def read_row(line: str, at: int) -> Row:
    """Returns the row in a line."""
    found = ROW.fullmatch(line)
    if not found:
        raise Refused(f"line {at + 1} is to be a row, as (LEFT,RIGHT] read LIST write LIST")
    left = None if found[1] == "min" else int(found[1])
    right = None if found[2] == "max" else int(found[2])
    return Row(left, right, read_numbers(found[3], at), read_numbers(found[4], at))


def check_rows(rows: Sequence[Row], at: int) -> None:
    """Checks that rows cover the ring in order, from `min` to the greatest token or `max`."""
    left, is_open = None, True
    for i, row in enumerate(rows):
        least = LEAST - 1 if left is None else left
        right = GREATEST if row.right is None else row.right
        if not is_open or row.left != left or not least < right <= GREATEST:
            raise Refused(f"line {at + i + 1} is not the row that follows the row before it")
        left, is_open = row.right, row.right is not None and row.right < GREATEST
    if is_open:
        raise Refused(f"line {at + len(rows)}: the rows of the answer end before the ring does")


def read_plan(answer: Sequence[str]) -> List[Stream]:
    """Returns the rows of `plan`."""
    head = HEAD_PLAN.fullmatch(answer[0])
    if not head or int(head[4]) != len(answer) - 1:
        raise Refused(f"this is to be a stream plan: {answer[0][:60]}")
    return [read_stream(it, i) for i, it in enumerate(answer[1:], 1)]


def read_stream(line: str, at: int) -> Stream:
    """Returns the row of a stream plan in a line."""
    found = STREAM.fullmatch(line)
    if not found:
        raise Refused(f"line {at + 1} is to be a row, as (LEFT,RIGHT] to NODE from NODE, or any LIST")
    left = None if found[1] == "min" else int(found[1])
    right = None if found[2] == "max" else int(found[2])
    strict = int(found[4]) if found[4] else None
    return Stream(left, right, int(found[3]), strict, read_numbers(found[5], at) if found[5] else ())


def read_numbers(text: str, at: int = 0) -> Tuple[int, ...]:
    """Returns the numbers of a list, which ascend; `-` is the empty list."""
    numbers = numbers_of(text)
    if numbers is None:
        raise Refused(f"line {at + 1} has a list that isn't one, or doesn't ascend: {text[:60]}")
    return numbers


@lru_cache(maxsize=65536)
def numbers_of(text: str) -> Optional[Tuple[int, ...]]:
    """Returns the numbers of a list, None where they don't ascend; answers have the same lists again and again."""
    if not LIST.fullmatch(text):
        return None
    numbers = tuple(int(it) for it in text.split(",") if it != "-")
    return numbers if all(a < b for a, b in zip(numbers, numbers[1:])) else None


def read_nodes(answer: Sequence[str], at: int = 0) -> Nodes:
    """Returns the answer to `nodes`."""
    head = HEAD_NODES.fullmatch(answer[0])
    if not head:
        raise Refused(f"line {at + 1} is to begin an answer to nodes: {answer[0][:60]}")
    count = int(head[2])
    nodes = tuple(read_node(it, at + 1 + i) for i, it in enumerate(answer[1 : 1 + count]))
    movements = tuple(read_movement(it, at + 1 + count + i) for i, it in enumerate(answer[1 + count :]))
    return Nodes(int(head[1]), nodes, movements)


def read_node(line: str, at: int) -> Node:
    """Returns the node in a line."""
    found = NODE.fullmatch(line)
    if not found:
        raise Refused(f"line {at + 1} is to be a node, as ID NAME DC RACK STATE LIST")
    return Node(int(found[1]), found[2], found[3], found[4], found[5], read_numbers(found[6], at))


def read_movement(line: str, at: int) -> Movement:
    """Returns the movement in a line."""
    found = SEQUENCE.fullmatch(line)
    if not found:
        raise Refused(f"line {at + 1} is to be a movement, as SEQ NODE KIND PHASE out PAIRS in PAIRS")
    return Movement(int(found[1]), found[2], found[3], read_pairs(found[4], at), read_pairs(found[5], at))


def read_pairs(text: str, at: int) -> Tuple[Pair, ...]:
    """Returns the pairs of a list such as `150@5,200@5`."""
    words = [] if text == "-" else text.split(",")
    if not all(PAIR.fullmatch(it) for it in words):
        raise Refused(f"line {at + 1} has pairs that aren't TOKEN@NODE: {text[:60]}")
    return tuple((int(token), int(node)) for token, node in (it.split("@") for it in words))


def read_quorum(line: str) -> Quorum:
    """Returns the answer to `quorum` or `local`."""
    found = QUORUM.fullmatch(line)
    if not found:
        raise Refused(f"this is to be an answer to quorum or local: {line[:60]}")
    return Quorum(int(found[2]), read_numbers(found[3]), int(found[4]), read_numbers(found[5]))
