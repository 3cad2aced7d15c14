"""The forms of the lines of scripts: whether a line has one, and if not, where and which word was expected."""
from __future__ import annotations

import difflib
from dataclasses import dataclass
from typing import Callable, Dict, List, Optional, Sequence, Tuple

from tools.terms import (
    GREATEST,
    KINDS,
    LEAST,
    MOST_DATACENTERS,
    MOST_ENTRIES,
    MOST_LINE,
    MOST_RF,
    MOST_TOKENS_OF_NODE,
    NAME,
    NUMBER,
    STEPS,
    TOKEN,
    is_token,
)

COMMANDS: Dict[str, Tuple[str, ...]] = {
    "register": ("NAME", "DC", "RACK"),
    "unregister": ("NODE",),
    "unsafe-join": ("NODE", "TOKEN .."),
    "keyspace": ("NAME", "REPLICATION"),
    "drop-keyspace": ("NAME",),
    "prepare-join": ("NODE", "TOKEN .."),
    "prepare-move": ("NODE", "TOKEN"),
    "prepare-leave": ("NODE",),
    "prepare-replace": ("NODE", "GONE"),
    **{f"{step}-{kind}": ("NODE",) for step in STEPS[1:] for kind in KINDS},
    "cancel": ("NODE",),
}
LINES: Dict[str, Tuple[str, ...]] = {
    "commit": ("ID", "COMMAND"),
    "place": ("TARGET", "KS"),
    "nodes": ("TARGET",),
    "quorum": ("TARGET", "KS", "TOKEN"),
    "local": ("TARGET", "KS", "DC", "TOKEN"),
    "follower": ("F",),
    "deliver": ("F", "E"),
    "snapshot": ("F", "E"),
    "ask": ("F", "MAX"),
    "give": ("F", "I"),
}
NAMES = ("NAME", "DC", "RACK", "KS", "F")


@dataclass(frozen=True)
class Fault:
    """What is wrong in a line: the column, from 1, and what was expected there."""

    column: int
    why: str


class Unfit(Exception):
    """A fault that ends the look through a line."""

    def __init__(self, column: int, why: str) -> None:
        super().__init__(why)
        self.fault = Fault(column, why)


@dataclass(frozen=True)
class Word:
    """A word of a line, and its column, from 1."""

    said: str
    column: int


def fault_of(line: str) -> Optional[Fault]:
    """Returns the first fault of a line of a script, None where the program takes it."""
    try:
        words = words_of(line)
        check_head(words, LINES, "a line")
        return None
    except Unfit as it:
        return it.fault


def fault_of_command(line: str, is_node: Callable[[str], bool]) -> Optional[Fault]:
    """Returns the first fault of a command without its `commit ID`, whose nodes are names that `is_node` takes."""
    try:
        check_head(words_of(line), COMMANDS, "a command", is_node)
        return None
    except Unfit as it:
        return it.fault


def words_of(line: str) -> List[Word]:
    """Returns the words of a line, which single spaces part."""
    for i, sign in enumerate(line):
        if sign == "\r" and i == len(line) - 1:
            raise Unfit(i + 1, "a carriage return ends the line; a line feed alone is to")
        if sign == "\t":
            raise Unfit(i + 1, "a tab, where a single space is to part words")
    if not line:
        raise Unfit(1, "an empty line, where a command or a query is expected")
    if len(line.encode("utf-8", "surrogateescape")) > MOST_LINE:
        raise Unfit(MOST_LINE + 1, f"the line is longer than {MOST_LINE:,} bytes")
    return split(line)


def split(line: str) -> List[Word]:
    """Returns the words between the spaces of a line."""
    words, column = [], 1
    for said in line.split(" "):
        if not said:
            at_end = column > len(line)
            raise Unfit(max(1, column - at_end), "a space at the end of the line" if at_end else "a space too many")
        words.append(Word(said, column))
        column += len(said) + 1
    return words


def check_head(
    words: Sequence[Word], forms: Dict[str, Tuple[str, ...]], what: str, is_node: Optional[Callable[[str], bool]] = None
) -> None:
    """Checks a line by the form of its first word."""
    head = words[0]
    if head.said not in forms:
        near = difflib.get_close_matches(head.said, forms, 1)
        hint = f"; is {near[0]} meant?" if near else f": {', '.join(forms)}"
        missing = "; `commit ID` comes before a command" if forms is LINES and head.said in COMMANDS else hint
        raise Unfit(head.column, f"`{head.said[:40]}` begins no {what.split()[-1]}{missing}")
    check_form(words, forms[head.said], is_node)


def check_form(words: Sequence[Word], form: Sequence[str], is_node: Optional[Callable[[str], bool]]) -> None:
    """Checks the words after the first one."""
    rest = list(words[1:])
    for part in form:
        if not rest:
            last = words[-1]
            raise Unfit(last.column + len(last.said) + 1, f"{part} is expected: {words[0].said} {' '.join(form)}")
        if part == "COMMAND":
            return check_head(rest, COMMANDS, "a command", is_node)
        if part == "REPLICATION":
            return check_replication(rest)
        if part == "TOKEN ..":
            return check_tokens(rest)
        check_word(rest.pop(0), part, is_node)
    if rest:
        raise Unfit(rest[0].column, f"the end of the line is expected: {words[0].said} {' '.join(form)}".rstrip())
    return None


def check_word(word: Word, part: str, is_node: Optional[Callable[[str], bool]]) -> None:
    """Checks a word against the part of a form that it stands for."""
    said = word.said
    if part in ("NODE", "GONE") and is_node:
        good, expected = is_node(said), f"{part} (the name of a node)"
    elif part in NAMES:
        good, expected = bool(NAME.fullmatch(said)), f"{part} (1 to 32 of the characters A-Z a-z 0-9 _ - .)"
    elif part in ("NODE", "GONE"):
        good, expected = is_number(said, 2**32), f"{part} (a node id: a number below 2^32 without leading zeros)"
    elif part == "MAX":
        good, expected = is_number(said, MOST_ENTRIES + 1) and said != "0", f"MAX (a number from 1 to {MOST_ENTRIES:,})"
    elif part in ("ID", "E", "I"):
        good, expected = is_number(said, 2**64), f"{part} (a number below 2^64 without leading zeros)"
    elif part == "TARGET":
        good, expected = is_target(said), "TARGET (an epoch such as @12, or the name of a follower)"
    else:
        good, expected = is_token(said), token_expected(said)
    if not good:
        raise Unfit(word.column, f"`{said[:40]}`, where {expected} is expected")


def is_number(said: str, bound: int) -> bool:
    """Returns whether a word is a number below a bound."""
    return bool(NUMBER.fullmatch(said)) and len(said) <= 20 and int(said) < bound


def is_target(said: str) -> bool:
    """Returns whether a word is an epoch or the name of a follower."""
    return is_number(said[1:], 2**64) if said.startswith("@") else bool(NAME.fullmatch(said))


def token_expected(said: str) -> str:
    """Returns what is expected in the place of a word that is no token."""
    if TOKEN.fullmatch(said):
        return f"TOKEN (this is out of range, {LEAST} to {GREATEST})"
    return f"TOKEN (a number from {LEAST} to {GREATEST} without leading zeros)"


def check_tokens(words: Sequence[Word]) -> None:
    """Checks that words are 1 to 256 different tokens."""
    seen = set()
    for i, word in enumerate(words):
        if i == MOST_TOKENS_OF_NODE:
            raise Unfit(
                word.column, f"the end of the line is expected: a node has at most {MOST_TOKENS_OF_NODE} tokens"
            )
        check_word(word, "TOKEN", None)
        if word.said in seen:
            raise Unfit(word.column, f"the token {word.said} comes a second time")
        seen.add(word.said)


def check_replication(words: Sequence[Word]) -> None:
    """Checks that words are a replication."""
    head, rest = words[0], words[1:]
    if head.said not in ("simple", "topology"):
        raise Unfit(head.column, f"`{head.said[:40]}`, where simple RF or topology DC:RF .. is expected")
    if not rest:
        raise Unfit(
            head.column + len(head.said) + 1, "RF is expected" if head.said == "simple" else "DC:RF is expected"
        )
    if head.said == "topology":
        return check_factors(rest)
    check_factor(rest[0], rest[0].said)
    if len(rest) > 1:
        raise Unfit(rest[1].column, "the end of the line is expected: simple has one factor")
    return None


def check_factors(words: Sequence[Word]) -> None:
    """Checks that words are 1 to 16 pairs DC:RF of different datacenters."""
    seen = set()
    for i, word in enumerate(words):
        dc, colon, factor = word.said.partition(":")
        if i == MOST_DATACENTERS:
            raise Unfit(
                word.column, f"the end of the line is expected: at most {MOST_DATACENTERS} datacenters are named"
            )
        if not colon or not NAME.fullmatch(dc):
            raise Unfit(word.column, f"`{word.said[:40]}`, where DC:RF is expected")
        if dc in seen:
            raise Unfit(word.column, f"the datacenter {dc} comes a second time")
        seen.add(dc)
        check_factor(Word(word.said, word.column + len(dc) + 1), factor)


def check_factor(word: Word, factor: str) -> None:
    """Checks a replication factor."""
    if not is_number(factor, MOST_RF + 1) or factor == "0":
        raise Unfit(word.column, f"`{factor[:40]}`, where RF, 1 to {MOST_RF} without leading zeros, is expected")
