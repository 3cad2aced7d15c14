"""What an import saw and a log has no place for: a file beside the log keeps it, LOG.seen.

Each line is a word and its values, parted by tabs: `down NODE` of a node that was Down, `tokens NODE T ..` of one that
was to join, `host NAME NODE` of a name of a machine, `missing KEYSPACE` of one that the schema didn't have. The names are
those of Cassandra.
"""
from __future__ import annotations

import os
from dataclasses import dataclass, field
from typing import Dict, List, Sequence, Tuple

from tools.errors import Refused
from tools.names import canonical
from tools.terms import is_token
from tools.text import fault, read_lines, write_text

HEAD = "# what the import saw and the log has no place for"


@dataclass
class Seen:
    """Nodes that were Down, tokens of nodes that were to join, names of machines, and keyspaces that were missing."""

    down: List[str] = field(default_factory=list)
    tokens: Dict[str, Tuple[int, ...]] = field(default_factory=dict)
    hosts: Dict[str, str] = field(default_factory=dict)
    missing: List[str] = field(default_factory=list)

    def node(self, said: str) -> str:
        """Returns the node that a word names: a node of the ring, or the name of its machine."""
        return self.hosts.get(said, said)

    def down_with(self, said: Sequence[str], up: Sequence[str]) -> List[str]:
        """Returns the nodes that are down: those that are said to be, and those that were and aren't said to be up."""
        risen = {canonical(self.node(it)) for it in up}
        return [*said, *(it for it in self.down if it not in risen and it not in said)]

    def add(self, words: List[str], path: str, line: int) -> None:
        """Adds the values of a line."""
        kind, values = words[0], words[1:]
        if kind == "down" and len(values) == 1:
            self.down.append(values[0])
        elif kind == "tokens" and len(values) > 1 and all(is_token(it) for it in values[1:]):
            self.tokens[values[0]] = tuple(int(it) for it in values[1:])
        elif kind == "host" and len(values) == 2:
            self.hosts[values[0]] = values[1]
        elif kind == "missing" and len(values) == 1:
            self.missing.append(values[0])
        else:
            raise fault(path, line, "this is to be down, tokens, host or missing with its values, parted by tabs")

    def lines(self) -> List[str]:
        """Returns the lines of the file."""
        lines = [f"down\t{it}" for it in self.down]
        lines += ["\t".join(["tokens", node, *map(str, it)]) for node, it in self.tokens.items()]
        lines += [f"host\t{name}\t{node}" for name, node in self.hosts.items()]
        return lines + [f"missing\t{it}" for it in self.missing]

    def save(self, path: str) -> None:
        """Writes the file; where nothing is to be kept, none is left."""
        if self.lines():
            write_text(path, "".join(f"{it}\n" for it in [HEAD, *self.lines()]))
        elif os.path.exists(path):
            try:
                os.remove(path)
            except OSError as why:
                raise Refused(f"{path}: {why.strerror}") from why


def path_of(log: str) -> str:
    """Returns where it is kept what an import saw."""
    return f"{log}.seen"


def seen_of(log: str) -> Seen:
    """Returns what the import of a log saw."""
    seen, path = Seen(), path_of(log)
    if os.path.exists(path):
        for number, line in enumerate(read_lines(path), 1):
            if line.strip() and not line.startswith("#"):
                seen.add(line.split("\t"), path, number)
    return seen
