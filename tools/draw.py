"""The verb `draw`: pictures of placements, from the answers of `tcm` or from a log."""
from __future__ import annotations

import argparse
import sys
from dataclasses import replace
from typing import Dict, List, Sequence, Set, Tuple

from tools.answers import Node, Nodes, Placement, framed, read_nodes, read_placement
from tools.bands import draw_bands
from tools.errors import Refused, WrongWords
from tools.log import State, state
from tools.names import Names, names_of
from tools.rings import draw_rings
from tools.terms import NUMBER, listed
from tools.text import name_of, read_lines, write_text
from tools.words import add_output, epoch_of, keyspace_named

NAME, HELP = "draw", "draw placements as a picture: rings for few rows, bands for many"
EXAMPLE = """example:
  bin/tcm commit < examples/join.script | bin/cluster draw 12 > join.svg
  bin/cluster draw --log cluster.log --keyspace accounts > accounts.svg
  bin/tcm replay cluster.log | bin/cluster draw --node 10.0.1.16 > replay.svg"""

MOST_ROWS, MOST_NODES = 40, 16  # rows and nodes, up to which rings are drawn
MOST_IN_RINGS = 100  # rows, up to which rings are drawn if they are asked for


def words(parser: argparse.ArgumentParser) -> None:
    """Declares the words of the verb."""
    parser.add_argument(
        "epochs",
        metavar="EPOCH",
        nargs="*",
        help="draw the answers of these epochs alone, or of these epochs of the log",
    )
    parser.add_argument(
        "--answers", metavar="FILE", default="-", help="answers of commit or of replay; standard input is the default"
    )
    parser.add_argument("--log", metavar="LOG", help="draw a state of this log in the place of answers")
    parser.add_argument(
        "--keyspace", metavar="KS", action="append", default=[], help="draw this keyspace alone; may be repeated"
    )
    parser.add_argument(
        "--node",
        metavar="NAME",
        action="append",
        default=[],
        help="draw this node alone, by name or id; may be repeated",
    )
    parser.add_argument("--shape", choices=("rings", "bands"), help="the shape, whatever the number of rows")
    add_output(parser, parser, "--to", "write the picture to this file; standard output is the default")


def run(options: argparse.Namespace) -> int:
    """Draws."""
    if not all(is_epoch(it) for it in options.epochs):
        raise WrongWords("the words are to be epochs, such as 12")
    drawn = picture_of(*(from_log(options) if options.log else from_answers(options)), options)
    if options.to:
        write_text(options.to, drawn)
    else:
        sys.stdout.write(drawn)
    return 0


def is_epoch(word: str) -> bool:
    """Returns whether a word is the number of an epoch."""
    return bool(NUMBER.fullmatch(word)) and len(word) <= 19


Found = Tuple[List[Placement], List[Node]]


def from_log(options: argparse.Namespace) -> Found:
    """Returns the placements of a log, and its nodes by their names of Cassandra."""
    names = names_of(options.log)
    states = [state(options.log, epoch_of(f"@{it}")) for it in options.epochs] or [state(options.log)]
    keyspaces = {keyspace_named(it, now, names) for it in options.keyspace for now in states}
    placements = [
        replace(placement, keyspace=listed([names.there("keyspace", it) for it in same]))
        for now in states
        for same in alike(now, keyspaces)
        for placement in now.places(same[:1])
    ]
    return placements, [cassandras(it, names) for it in latest_nodes([now.nodes for now in states])]


def alike(now: State, keyspaces: Set[str]) -> List[List[str]]:
    """Returns the keyspaces to draw, or all, those with the same replication together: they are one picture."""
    found = ([it for it in same if not keyspaces or it in keyspaces] for same in now.distinct().values())
    return [it for it in found if it]


def cassandras(node: Node, names: Names) -> Node:
    """Returns a node with its names of Cassandra."""
    there = names.there
    return replace(node, name=there("node", node.name), dc=there("datacenter", node.dc), rack=there("rack", node.rack))


def from_answers(options: argparse.Namespace) -> Found:
    """Returns the placements among answers, and the nodes that answers to `nodes` show."""
    lines = read_lines(options.answers)
    if lines[-1] == "":
        lines.pop()
    try:
        answers = list(framed(lines))
        placements = [read_placement(it, at) for at, it in answers if it[0].startswith("PLACE ")]
        nodes = latest_nodes([read_nodes(it, at) for at, it in answers if it[0].startswith("NODES ")])
    except Refused as why:
        raise Refused(f"{name_of(options.answers)}: {why}") from why
    epochs, keyspaces = [int(it) for it in options.epochs], set(options.keyspace)
    chosen = [
        it for it in placements if (not epochs or it.epoch in epochs) and (not keyspaces or it.keyspace in keyspaces)
    ]
    return sorted(chosen, key=lambda it: epochs.index(it.epoch)) if epochs else chosen, nodes


def latest_nodes(answers: Sequence[Nodes]) -> List[Node]:
    """Returns each node as the latest of some answers shows it."""
    found: Dict[int, Node] = {}
    for answer in sorted(answers, key=lambda it: it.epoch):
        found.update({it.id: it for it in answer.nodes})
    return list(found.values())


def picture_of(placements: List[Placement], nodes: List[Node], options: argparse.Namespace) -> str:
    """Returns the picture of some placements."""
    if not placements:
        raise Refused(
            "no answer to place is there" + (
                " of these epochs and keyspaces" if options.epochs or options.keyspace else ""
            )
        )
    known = {it.id: it for it in nodes}
    replicas = sorted({n for it in placements for row in it.rows for n in row.writes + row.reads})
    shown = [it for it in replicas if not options.node or is_named(it, known, options.node)]
    if options.node and not shown:
        raise Refused(f"no replica {' or '.join(options.node)} is in these placements")
    is_small = max(len(it.rows) for it in placements) <= MOST_ROWS and len(shown) <= MOST_NODES
    if options.shape == "rings" and max(len(it.rows) for it in placements) > MOST_IN_RINGS:
        raise Refused(f"more than {MOST_IN_RINGS} ranges can't be told apart in a ring: draw them by --shape bands")
    if (options.shape or ("rings" if is_small else "bands")) == "rings" or not shown:
        return draw_rings(placements, shown, {n: f"node {n}" + named(n, known) for n in shown} if options.log else {})
    return draw_bands(placements, [known.get(n) or Node(n, f"node {n}", "", "", "", ()) for n in shown])


def named(node: int, known: Dict[int, Node]) -> str:
    """Returns the name of a node in parentheses, if it is known."""
    return f" ({known[node].name})" if node in known else ""


def is_named(node: int, known: Dict[int, Node], said: Sequence[str]) -> bool:
    """Returns whether words name a node, by its name or its id."""
    return str(node) in said or (node in known and known[node].name in said)
