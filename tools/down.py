"""Nodes that are down: those that words or wishes name, and those that the import of a log saw."""
from __future__ import annotations

import argparse
from typing import List, Sequence

from tools.errors import Refused
from tools.log import state
from tools.names import Names
from tools.near import meant
from tools.seen import seen_of


def add_down(parser: argparse.ArgumentParser) -> None:
    """Declares `--down` and `--up`."""
    parser.add_argument(
        "--down", metavar="NAME", action="append", default=[], help="a node that is down, so no source; may be repeated"
    )
    parser.add_argument(
        "--up", metavar="NAME", action="append", default=[], help="a node that is up, though the import saw it Down"
    )


def down_of(log: str, said: Sequence[str], up: Sequence[str], names: Names) -> List[str]:
    """Returns the nodes that are down, by their names of Cassandra; of those that the import saw, those with tokens."""
    seen = seen_of(log)
    named = [seen.node(it) for it in said]
    if not named and not seen.down:
        return []
    nodes = {names.there("node", it.name): it for it in state(log).nodes.nodes}
    theirs = [names.there("node", names.here("node", it)) for it in named]
    for it, node in zip(said, theirs):
        if node not in nodes:
            raise Refused(f"no node {it} is in the log{meant(it, nodes)}")
    rest = [it for it in seen.down_with(theirs, up) if it in nodes and nodes[it].tokens]
    return list(dict.fromkeys([*theirs, *rest]))
