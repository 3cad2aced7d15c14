"""Reads the keyspaces of a schema, as `DESCRIBE SCHEMA` and `DESCRIBE KEYSPACE` of cqlsh print it."""
from __future__ import annotations

import re
from dataclasses import dataclass, field
from typing import Dict, Iterator, List, Optional

from tools.errors import Refused
from tools.text import fault

WORDS = re.compile(
    r"""(?P<passed>\s+|--[^\n]*|//[^\n]*|/\*.*?\*/)
      | (?P<text>'(?:[^']|'')*'|\$\$.*?\$\$)
      | (?P<quoted>"(?:[^"]|"")*")
      | (?P<word>[A-Za-z0-9_.+-]+)
      | (?P<sign>.)""",
    re.VERBOSE | re.DOTALL,
)

OPENINGS = ("'", '"', "$$", "/*")
OTHERS = ("table", "type", "index", "custom", "materialized", "function", "aggregate", "or", "trigger", "role", "user")
SKIP = "to pass it over: --skip-unknown"


@dataclass(frozen=True)
class Word:
    """A word of CQL: a text without its quotes, a name in its case, a sign."""

    kind: str
    said: str
    line: int

    def is_word(self, *said: str) -> bool:
        """Returns whether this is one of these keywords, or of these signs."""
        return self.kind in ("word", "sign") and self.said.lower() in said


@dataclass
class Keyspace:
    """A keyspace with its strategy, without a package, and the options of its replication."""

    name: str
    strategy: str
    options: Dict[str, str]
    line: int
    notes: List[str] = field(default_factory=list)  # what the reader should know of its statements


class Reader:
    """Reads the words of a schema one after another."""

    def __init__(self, text: str, path: str) -> None:
        self.text, self.path = text, path
        self.at, self.line = 0, 1
        self.begun = (0, 1)  # where the last word begins, and its line

    def word(self) -> Optional[Word]:
        """Returns the next word, None at the end; comments are passed over."""
        while self.at < len(self.text):
            found = WORDS.match(self.text, self.at)
            assert found
            kind, said, line = str(found.lastgroup), found[0], self.line
            if kind == "sign" and self.text.startswith(OPENINGS, self.at):
                begin = self.text[self.at : self.at + 20].split()[0]
                raise fault(self.path, line, f"what begins here with {begin} doesn't end: is the schema cut?")
            self.begun = (self.at, line)
            self.at, self.line = found.end(), line + said.count("\n")
            if kind != "passed":
                return Word(kind, unquoted(kind, said), line)
        return None

    def pass_line(self) -> str:
        """Passes over the line of the last word from this word on, whatever more it has, and returns its beginning."""
        begin, self.line = self.begun
        end = self.text.find("\n", begin)
        self.at = len(self.text) if end < 0 else end
        return self.text[begin : self.at][:40].strip()


def unquoted(kind: str, said: str) -> str:
    """Returns a text or a name without its quotes."""
    if kind == "text":
        return said[2:-2] if said.startswith("$$") else said[1:-1].replace("''", "'")
    return said[1:-1].replace('""', '"') if kind == "quoted" else said


def statements_of(text: str, path: str, skipped: Optional[List[str]] = None) -> Iterator[List[Word]]:
    """Gives the statements of a schema, each to its semicolon.

    Each begins with CREATE or ALTER. What begins otherwise is refused, or if there is a list of what is skipped, its line is passed
    over and told there.
    """
    reader = Reader(text, path)
    while True:
        first = reader.word()
        if first is None:
            return
        if first.is_word("create", "alter"):
            yield statement_after(first, reader)
        elif first.is_word(";"):
            continue
        elif skipped is None:
            raise fault(path, first.line, f"`{reader.pass_line()}` begins no statement of a schema; {SKIP}")
        else:
            skipped.append(f"line {first.line} is passed over: `{reader.pass_line()}`")


def statement_after(first: Word, reader: Reader) -> List[Word]:
    """Returns a statement up to its semicolon."""
    words = [first]
    while True:
        word = reader.word()
        if word is None or word.is_word("create"):
            what = " ".join(it.said for it in words[:2])
            why = "is the schema cut?" if word is None else f"CREATE comes in line {word.line}"
            raise fault(reader.path, first.line, f"this {what[:40]} has no semicolon at its end: {why}")
        if word.is_word(";"):
            return words
        words.append(word)


def read_schema(text: str, path: str, skipped: Optional[List[str]] = None) -> List[Keyspace]:
    """Returns the keyspaces that a schema makes, in its order; `skipped` is as statements_of has it."""
    found: Dict[str, Keyspace] = {}
    for words in statements_of(text, path, skipped):
        if not is_of_keyspace(words, path, skipped):
            continue
        if words[0].is_word("alter"):
            alter(found, words, path)
            continue
        keyspace = read_keyspace(words, path)
        if keyspace.name in found:
            raise fault(
                path,
                keyspace.line,
                f"the keyspace {keyspace.name} is made in line {found[keyspace.name].line} too: two clusters?",
            )
        found[keyspace.name] = keyspace
    if not found:
        raise Refused(f"{path}: no CREATE KEYSPACE is there; DESCRIBE SCHEMA and DESCRIBE KEYSPACE of cqlsh print it")
    return list(found.values())


def is_of_keyspace(words: List[Word], path: str, skipped: Optional[List[str]]) -> bool:
    """Returns whether a statement makes a keyspace; one that makes nothing known is refused or skipped."""
    if len(words) > 1 and words[1].is_word("keyspace"):
        return True
    if not (len(words) > 1 and words[1].is_word(*OTHERS)):
        said = " ".join(it.said for it in words[:2])[:40]
        if skipped is None:
            raise fault(path, words[0].line, f"`{said}` makes nothing that a schema has; {SKIP}")
        skipped.append(f"line {words[0].line} is passed over: `{said} ..`")
    return False


def read_keyspace(words: List[Word], path: str) -> Keyspace:
    """Returns the keyspace that a statement makes."""
    at = 5 if len(words) > 4 and words[2].is_word("if") else 2
    if len(words) <= at or words[at].kind not in ("word", "quoted"):
        raise fault(path, words[0].line, "CREATE KEYSPACE is to be followed by a name")
    name = words[at].said if words[at].kind == "quoted" else words[at].said.lower()
    options = read_options(words[at + 1 :], name, path, words[at].line)
    if "class" not in options:
        raise fault(path, words[at].line, f"the replication of {name} names no class")
    strategy = options.pop("class").rpartition(".")[2]
    return Keyspace(name, strategy, options, words[at].line, left_out_of(words))


def alter(found: Dict[str, Keyspace], words: List[Word], path: str) -> None:
    """Gives a keyspace the replication that ALTER KEYSPACE says."""
    line = words[0].line
    if any(it.is_word("replication") for it in words):
        changed = read_keyspace(words, path)
        if changed.name not in found:
            raise fault(path, line, f"ALTER KEYSPACE {changed.name} comes before any CREATE KEYSPACE {changed.name}")
        keyspace = found[changed.name]
        keyspace.strategy, keyspace.options = changed.strategy, changed.options
        keyspace.notes += [f"its replication is that of ALTER KEYSPACE in line {line}", *changed.notes]


def left_out_of(words: List[Word]) -> List[str]:
    """Returns notes on options of a keyspace that have no place here: all but its replication, and the usual value."""
    begins = [i + 1 for i, it in enumerate(words) if it.is_word("with", "and")]
    said = [
        " ".join(it.said for it in words[begin : end - 1])
        for begin, end in zip(begins, [*begins[1:], len(words) + 1])
        if not words[begin : begin + 1] or not words[begin].is_word("replication")
    ]
    return [f"its option {it[:60]} is left out" for it in said if it.lower() != "durable_writes = true"]


def read_options(words: List[Word], name: str, path: str, line: int) -> Dict[str, str]:
    """Returns the options between the braces after `replication =`."""
    begin = next((i for i, it in enumerate(words) if it.is_word("replication")), None)
    if begin is None or len(words) < begin + 3 or not (words[begin + 1].is_word("=") and words[begin + 2].is_word("{")):
        raise fault(path, line, f"{name} is to have WITH replication = {{'class': ..}}")
    inside: List[Word] = []
    for word in words[begin + 3 :]:
        if word.is_word("}"):
            return pairs_of(inside, name, path)
        inside.append(word)
    raise fault(path, line, f"the replication of {name} has no closing brace")


def pairs_of(words: List[Word], name: str, path: str) -> Dict[str, str]:
    """Returns the pairs of a map such as 'class': 'SimpleStrategy', 'replication_factor': '3'."""
    options: Dict[str, str] = {}
    for i in range(0, len(words), 4):
        key, rest = words[i], words[i + 1 : i + 4]
        is_pair = len(rest) > 1 and rest[0].is_word(":") and rest[1].kind in ("text", "word")
        if key.kind != "text" or not is_pair:
            raise fault(
                path, key.line, f"the replication of {name} is to be 'OPTION': 'VALUE', .., not {key.said[:40]}"
            )
        value = rest[1]
        if len(rest) > 2 and not rest[2].is_word(","):
            raise fault(path, rest[2].line, f"a comma is to come before {rest[2].said[:40]}")
        if key.said in options:
            raise fault(path, key.line, f"the replication of {name} has {key.said} twice")
        options[key.said] = value.said
    return options
