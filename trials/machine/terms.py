"""Tokens, arcs and rows; names and replications; numbers and limits."""
from __future__ import annotations

import re
from dataclasses import dataclass
from typing import List, Optional, Sequence, Tuple

LEAST, GREATEST = -(2**63), 2**63 - 1

MOST_EPOCHS, MOST_NODES, MOST_TOKENS, MOST_TOKENS_OF_NODE, MOST_KEYSPACES = 65536, 1024, 16384, 256, 64
MOST_FOLLOWERS, MOST_REPLIES, MOST_WAITING, MOST_ASKED = 16, 64, 1024, 1024
MOST_FILES, MOST_MEMBERS, MOST_ROUNDS = 64, 16, 3000
MOST_LINE, MOST_FILE_LINE, MOST_BYTES = 16384, 4194304, 536870912
MOST_FACTOR, MOST_DATACENTERS = 16, 16
IDS, NODES = 2**64, 2**32  # ids and epochs, and node ids, are below these

Pair = Tuple[int, int]  # a token with its node
Ring = Tuple[Pair, ...]  # ascending by token
Row = Tuple[Optional[int], Optional[int]]  # (left, right]; None is `min` and `max`


def in_arc(first: int, last: int, token: int) -> bool:
    """Returns whether a token is met clockwise from `first` on, before `last`."""
    if first <= last:
        return first <= token < last
    return token >= first or token < last


def rows_of(cuts: Sequence[int]) -> List[Row]:
    """Returns the rows between cuts that ascend: one ends at each cut, and one more has the tokens past the last."""
    lefts: List[Optional[int]] = [None, *cuts]
    rows = list(zip(lefts, cuts)) if cuts else []
    return [*rows, (lefts[-1], None)] if not cuts or cuts[-1] < GREATEST else list(rows)


def last_of(row: Row) -> int:
    """Returns the last token of a row, which stands for all of them."""
    return GREATEST if row[1] is None else row[1]


def end_text(row: Row) -> str:
    """Returns where a row ends: a token or `max`."""
    return "max" if row[1] is None else str(row[1])


def row_text(row: Row) -> str:
    """Returns a row as answers show it."""
    return f"({'min' if row[0] is None else row[0]},{end_text(row)}]"


def is_name(word: str) -> bool:
    """Returns whether a word is a name."""
    return re.fullmatch(r"[A-Za-z0-9_.-]{1,32}", word) is not None


def number_of(word: str, bound: int, least: int = 0) -> Optional[int]:
    """Returns the number below a bound that a word writes, in decimal digits without leading zeros."""
    if not re.fullmatch(r"0|[1-9][0-9]{0,19}", word):
        return None
    return int(word) if least <= int(word) < bound else None


def token_of(word: str) -> Optional[int]:
    """Returns the token that a word writes."""
    if not re.fullmatch(r"0|-?[1-9][0-9]{0,18}", word):
        return None
    return int(word) if LEAST <= int(word) <= GREATEST else None


def tokens_of(words: Sequence[str]) -> Optional[Tuple[int, ...]]:
    """Returns the tokens that words write, ascending: 1 to 256 different ones."""
    tokens = [it for it in map(token_of, words) if it is not None]
    if not 1 <= len(words) <= MOST_TOKENS_OF_NODE or len(set(tokens)) != len(words):
        return None
    return tuple(sorted(tokens))


@dataclass(frozen=True)
class Group:
    """Nodes that get replicas by themselves: all nodes, counted as one rack, or those of a datacenter."""

    dc: Optional[str]
    factor: int


@dataclass(frozen=True)
class Replication:
    """How many replicas a keyspace asks for in each group. The groups ascend by datacenter."""

    groups: Tuple[Group, ...]

    def text(self) -> str:
        """Returns the one text of a replication."""
        if self.groups[0].dc is None:
            return f"simple {self.groups[0].factor}"
        return "topology " + " ".join(f"{it.dc}:{it.factor}" for it in self.groups)

    def total(self) -> int:
        """Returns how many replicas are asked for."""
        return sum(it.factor for it in self.groups)


def group_of(word: str) -> Optional[Group]:
    """Returns the group that `DC:RF` names."""
    dc, colon, factor = word.partition(":")
    number = number_of(factor, MOST_FACTOR + 1, 1)
    return Group(dc, number) if colon and is_name(dc) and number is not None else None


def replication_of(words: Sequence[str]) -> Optional[Replication]:
    """Returns the replication that words name: `simple RF`, or `topology DC:RF ..` in any order."""
    if len(words) == 2 and words[0] == "simple":
        factor = number_of(words[1], MOST_FACTOR + 1, 1)
        return None if factor is None else Replication((Group(None, factor),))
    if not words or words[0] != "topology" or not 1 <= len(words) - 1 <= MOST_DATACENTERS:
        return None
    groups = [it for it in map(group_of, words[1:]) if it is not None]
    if len({it.dc for it in groups}) != len(words) - 1:
        return None
    return Replication(tuple(sorted(groups, key=lambda it: str(it.dc))))


def list_text(items: Sequence[object]) -> str:
    """Returns items with commas between them, `-` if there are none."""
    return ",".join(map(str, items)) or "-"
