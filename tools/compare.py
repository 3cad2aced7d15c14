"""The verb `compare`: the placements of a keyspace against `nodetool describering`, range by range."""
from __future__ import annotations

import argparse
from bisect import bisect_left, bisect_right
from dataclasses import dataclass
from typing import Dict, Iterator, List, Set, Tuple

from tools.answers import Placement, Row
from tools.log import State, state
from tools.names import Names, names_of
from tools.near import is_same_but_spelled
from tools.nodetool import TokenRange, read_describering
from tools.show import print_json, say
from tools.terms import GREATEST, LEAST, listed, plural
from tools.text import name_of, read_lines
from tools.words import add_json, add_log, epoch_of, keyspace_named

NAME, HELP = "compare", "compare placements with nodetool describering of a live cluster"
EXAMPLE = """example:
  nodetool describering accounts > describering.txt
  bin/cluster compare cluster.log accounts describering.txt"""


@dataclass(frozen=True)
class Difference:
    """A difference: the line of describering, 0 where it has none, the range, and what differs there."""

    line: int
    where: str
    why: str


def words(parser: argparse.ArgumentParser) -> None:
    """Declares the words of the verb."""
    add_log(parser)
    parser.add_argument("keyspace", metavar="KEYSPACE", help="the keyspace that describering was asked for")
    parser.add_argument(
        "describering", metavar="DESCRIBERING", help="what nodetool describering printed; - is standard input"
    )
    parser.add_argument("--at", metavar="@EPOCH", default="@last", help="the epoch to compare; @last is the default")
    add_json(parser)


def run(options: argparse.Namespace) -> int:
    """Compares, and returns 1 where something differs."""
    ranges = read_describering(read_lines(options.describering), name_of(options.describering))
    names, now = names_of(options.log), state(options.log, epoch_of(options.at))
    found = differences(ranges, keyspace_named(options.keyspace, now, names), now, names)
    blind = [it.line for it in ranges if not it.places]
    if options.json:
        print_json({"ranges": len(ranges), "differences": [vars(it) for it in found], "racks_not_compared": blind})
    else:
        show(name_of(options.describering), options.keyspace, now.epoch, ranges, found)
    return 1 if found else 0


def show(name: str, keyspace: str, epoch: int, ranges: List[TokenRange], found: List[Difference]) -> None:
    """Prints differences, and what wasn't compared."""
    for it in found:
        say(f"{name}{f':{it.line}' if it.line else ''}: {it.where}: {it.why}")
    blind = [it for it in ranges if not it.places]
    if blind:
        where_ = f"{name}:{blind[0].line}: " + ("" if len(blind) == 1 else "and later: ")
        say(f"{where_}racks not compared in {plural(len(blind), 'range')}: no endpoint_details that can be read")
    what = plural(len(found), "difference") if found else "no difference"
    say(f"{plural(len(ranges), 'range')} of {keyspace} at epoch {epoch}: {what}")


def differences(ranges: List[TokenRange], keyspace: str, now: State, names: Names) -> List[Difference]:
    """Returns where ranges and the placement of a keyspace differ."""
    rows = RowsByToken(now.place(keyspace))
    tokens = {token for node in now.nodes.nodes for token in node.tokens}
    found = [*unlike_ends(ranges, tokens), *unlike_places(ranges, now, names)]
    for it in ranges:
        found += unlike_replicas(it, rows.of(it), now, names)
    return sorted(found, key=lambda it: it.line)


class RowsByToken:
    """The rows of a placement, found by their tokens."""

    def __init__(self, placement: Placement) -> None:
        self.rows = placement.rows
        self.ends = [GREATEST if it.right is None else it.right for it in placement.rows]

    def between(self, left: int, right: int) -> Tuple[Row, ...]:
        """Returns the rows that have a token of (left,right] in common with it."""
        return self.rows[bisect_right(self.ends, left) : bisect_left(self.ends, right) + 1]

    def of(self, it: TokenRange) -> Tuple[Row, ...]:
        """Returns the rows that have a token in common with a range, which may go round the end of the ring."""
        if it.start < it.end:
            return self.between(it.start, it.end)
        return self.between(it.start, GREATEST) + self.between(LEAST - 1, it.end)


def unlike_ends(ranges: List[TokenRange], tokens: Set[int]) -> Iterator[Difference]:
    """Gives tokens that only one of both has, ranges that are doubled, and gaps between ranges."""
    theirs: Dict[int, TokenRange] = {}
    for it in ranges:
        if it.end in theirs:
            yield Difference(it.line, where(it), f"line {theirs[it.end].line} has a range with this end too")
        theirs.setdefault(it.end, it)
        if it.end not in tokens:
            yield Difference(it.line, where(it), f"the log has no token {it.end}")
    for end in sorted(tokens):
        if end not in theirs:
            yield Difference(0, "describering", f"no range ends at {end}, which is a token of the log")
    before = {b: a for a, b in zip([max(theirs), *sorted(theirs)], sorted(theirs))}
    for it in ranges:
        if it.start != before[it.end]:
            yield Difference(it.line, where(it), f"the range that ends at {it.end} is to start at {before[it.end]}")


def unlike_places(ranges: List[TokenRange], now: State, names: Names) -> Iterator[Difference]:
    """Gives nodes that the log doesn't know, or knows in another datacenter or rack, each once."""
    told: Set[Tuple[str, Tuple[str, str]]] = set()
    for it in ranges:
        for host, place in it.places.items():
            node = now.by_name.get(names.here("node", host))
            ours = (names.there("datacenter", node.dc), names.there("rack", node.rack)) if node else place
            if ours != place and (host, place) not in told:
                told.add((host, place))
                only = " (they differ in spelling only)" if all(map(is_same_but_spelled, place, ours)) else ""
                yield Difference(
                    it.line,
                    where(it),
                    f"{host} is in {place[0]} {place[1]}, and in {ours[0]} {ours[1]} in the log{only}",
                )


def unlike_replicas(it: TokenRange, rows: Tuple[Row, ...], now: State, names: Names) -> List[Difference]:
    """Returns how the endpoints of a range differ from the nodes that are read in the rows of it."""
    theirs = set(it.endpoints)
    found: List[str] = []
    for row in rows:
        ours = {names.there("node", now.by_id[n].name) for n in row.reads}
        why = "; ".join(
            f"{listed(sorted(nodes))} {said}"
            for nodes, said in ((theirs - ours, "only in describering"), (ours - theirs, "only in the log"))
            if nodes
        )
        if why and why not in found:
            found.append(why)
    if len(theirs) != len(it.endpoints):
        found.append("describering names an endpoint twice")
    if it.places and set(it.places) != theirs:
        found.append("endpoints and endpoint_details name different nodes")
    return [Difference(it.line, where(it), why) for why in found]


def where(it: TokenRange) -> str:
    """Returns a range as describering means it."""
    return f"({it.start},{it.end}]"
