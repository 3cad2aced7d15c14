"""The verb `status`: the nodes of a log with their tokens and shares, and the movements in flight."""
from __future__ import annotations

import argparse
from typing import Dict, Iterable, List

from tools.answers import Movement, Node
from tools.log import State, state
from tools.names import Names, names_of
from tools.placements import read_shares
from tools.show import print_json, print_lines, say, table
from tools.terms import listed, percent, plural
from tools.words import add_json, add_keyspaces, add_log, chosen_keyspaces, epoch_of

NAME, HELP = "status", "show nodes with their shares of each keyspace, and movements in flight"
EXAMPLE = """example:
  bin/cluster status cluster.log
  bin/cluster status cluster.log @12 --keyspace accounts"""


def words(parser: argparse.ArgumentParser) -> None:
    """Declares the words of the verb."""
    add_log(parser)
    parser.add_argument(
        "epoch",
        metavar="@EPOCH",
        nargs="?",
        default="@last",
        help="the epoch to show, such as @12; @last is the default",
    )
    add_keyspaces(parser)
    add_json(parser)


def run(options: argparse.Namespace) -> int:
    """Shows the state of a log."""
    names, now = names_of(options.log), state(options.log, epoch_of(options.epoch))
    keyspaces = chosen_keyspaces(options.keyspace, now, names)
    if options.json:
        print_json(as_json(now, names, keyspaces))
    else:
        show(options.log, now, names, keyspaces)
    return 0


def show(log: str, now: State, names: Names, keyspaces: List[str]) -> None:
    """Prints the state."""
    tokens = sum(len(it.tokens) for it in now.nodes.nodes)
    say(
        f"{log}, epoch {now.epoch}: {plural(len(now.nodes.nodes), 'node')}, {plural(tokens, 'token')}, "
        f"{plural(len(now.replications), 'keyspace')}"
    )
    columns = columns_of(now, keyspaces)
    shares = shares_of(now, columns)
    for dc in sorted({it.dc for it in now.nodes.nodes}):
        say(f"\nDatacenter {names.there('datacenter', dc)}")
        print_lines(table(rows_of(now, names, dc, shares), right=range(3, 4 + len(columns))), "  ")
    print_keyspaces(now, names, columns)
    if now.movements:
        say("\nMovements in flight")
        print_lines(table([movement_row(it, now, names) for it in now.movements]), "  ")
    else:
        say("\nNo movement is in flight.")
    if names.differing():
        say("\nNames that differ from those of Cassandra")
        print_lines(table([[kind, here, f"is {there}"] for kind, here, there in names.differing()]), "  ")


def columns_of(now: State, keyspaces: List[str]) -> Dict[str, List[str]]:
    """Returns a column for the keyspaces of each replication, by the least name: they have the same shares."""
    found = {it: [k for k in same if k in keyspaces] for it, same in now.distinct().items()}
    return {same[0]: same for same in found.values() if same}


def shares_of(now: State, keyspaces: Iterable[str]) -> Dict[str, Dict[int, int]]:
    """Returns the shares of the nodes that are read, by keyspace."""
    return {it.keyspace: read_shares(it) for it in now.places(keyspaces)}


def rows_of(now: State, names: Names, dc: str, shares: Dict[str, Dict[int, int]]) -> List[List[str]]:
    """Returns the table of a datacenter, by rack and node."""
    rows = [["rack", "node", "state", "tokens", *(names.there("keyspace", it) for it in shares)]]
    for node in sorted((it for it in now.nodes.nodes if it.dc == dc), key=lambda it: (it.rack, it.id)):
        parts = [
            percent(share.get(node.id, 0)) if node.tokens or share.get(node.id) else "-" for share in shares.values()
        ]
        rows.append(
            [names.there("rack", node.rack), names.there("node", node.name), node.state, str(len(node.tokens)), *parts]
        )
    return rows


def print_keyspaces(now: State, names: Names, columns: Dict[str, List[str]]) -> None:
    """Prints the replication of each keyspace, those with the same one together."""
    if columns:
        say("\nKeyspaces (a share is the part of the ring at which the node is a replica)")
        rows = [
            [listed([names.there("keyspace", it) for it in same]), replication_said(now.replications[first], names)]
            for first, same in columns.items()
        ]
        print_lines(table(rows), "  ")


def replication_said(replication: str, names: Names) -> str:
    """Returns a replication with the names of Cassandra for its datacenters."""
    pairs = (it.rpartition(":") for it in replication.split(" ")[1:])
    factors = [f"{names.there('datacenter', dc)}{colon}{factor}" for dc, colon, factor in pairs]
    return " ".join([replication.split(" ")[0], *factors])


def movement_row(movement: Movement, now: State, names: Names) -> List[str]:
    """Returns a movement as a row of a table."""
    node = now.by_id[movement.node]
    return [
        names.there("node", node.name),
        movement.kind + partner(movement, now, names),
        movement.phase,
        tokens_said(movement),
    ]


def partner(movement: Movement, now: State, names: Names) -> str:
    """Returns which node a replace is for."""
    if movement.kind != "replace" or not movement.outgoing:
        return ""
    return f" of {names.there('node', now.by_id[movement.outgoing[0][1]].name)}"


def tokens_said(movement: Movement) -> str:
    """Returns how many tokens a movement takes out of the ring and puts in."""
    out, into = len(movement.outgoing), len(movement.incoming)
    if movement.kind == "move":
        return f"{movement.outgoing[0][0]} to {movement.incoming[0][0]}"
    return plural(into if movement.kind in ("join", "replace") else out, "token")


def as_json(now: State, names: Names, keyspaces: List[str]) -> Dict[str, object]:
    """Returns the state as JSON has it."""
    first = {k: same[0] for same in columns_of(now, keyspaces).values() for k in same}
    by_first = shares_of(now, sorted(set(first.values())))
    shares = {it: by_first[first[it]] for it in keyspaces}
    return {
        "epoch": now.epoch,
        "nodes": [node_json(it, shares, names) for it in now.nodes.nodes],
        "keyspaces": {names.there("keyspace", it): replication_said(now.replications[it], names) for it in keyspaces},
        "movements": [
            {
                "node": names.there("node", now.by_id[it.node].name),
                "kind": it.kind,
                "phase": it.phase,
                "out": [
                    {"token": str(token), "node": names.there("node", now.by_id[node].name)}
                    for token, node in it.outgoing
                ],
                "in": [
                    {"token": str(token), "node": names.there("node", now.by_id[node].name)}
                    for token, node in it.incoming
                ],
            }
            for it in now.movements
        ],
    }


def node_json(node: Node, shares: Dict[str, Dict[int, int]], names: Names) -> Dict[str, object]:
    """Returns a node as JSON has it."""
    return {
        "id": node.id,
        "name": names.there("node", node.name),
        "datacenter": names.there("datacenter", node.dc),
        "rack": names.there("rack", node.rack),
        "state": node.state,
        "tokens": [str(it) for it in node.tokens],
        "shares": {
            names.there("keyspace", it): round(share.get(node.id, 0) / 2**64, 6) for it, share in shares.items()
        },
    }
