"""The verb `where`: the token of a partition key, and the replicas that the program answers for it."""
from __future__ import annotations

import argparse
from dataclasses import dataclass
from typing import Dict, List, Sequence

from tools.answers import Quorum, Row, read_quorum
from tools.keys import TYPES, serialized, types_for
from tools.log import State, copy_of, state, words_on
from tools.margins import levels_of
from tools.murmur3 import token_of
from tools.names import Names, names_of
from tools.placements import row_at
from tools.program import Session
from tools.show import print_json, print_lines, table
from tools.terms import row_name
from tools.whatif import level_said
from tools.words import add_json, add_log, epoch_of, keyspace_named

NAME, HELP = "where", "show the replicas of a partition key, as nodetool getendpoints does, with its token and quorums"
EXAMPLE = f"""types: {', '.join(TYPES)}; text is the default.
A composite partition key has several values, with a type for each: --type text,int

example:
  bin/cluster where cluster.log accounts alice
  bin/cluster where cluster.log accounts 42 --type bigint --epoch @12
  bin/cluster where cluster.log accounts alice 7 --type text,int"""


@dataclass(frozen=True)
class Place:
    """Where a key stands at an epoch: its row of the placement, and the quorums there by their levels."""

    token: int
    row: Row
    levels: Dict[str, Quorum]


def words(parser: argparse.ArgumentParser) -> None:
    """Declares the words of the verb."""
    add_log(parser)
    parser.add_argument("keyspace", metavar="KS", help="the keyspace")
    parser.add_argument("key", metavar="VALUE", nargs="+", help="the value of each column of the partition key")
    parser.add_argument(
        "--type", metavar="TYPE", action="append", default=[], help="the CQL type of the values, or one for each"
    )
    parser.add_argument(
        "--epoch", metavar="@EPOCH", default="@last", help="the epoch to show, such as @12; @last is the default"
    )
    add_json(parser)


def run(options: argparse.Namespace) -> int:
    """Shows where a key stands."""
    names, now = names_of(options.log), state(options.log, epoch_of(options.epoch))
    keyspace = keyspace_named(options.keyspace, now, names)
    key = serialized(types_for(options.type, len(options.key)), options.key)
    place = place_of(options.log, now, keyspace, token_of(key))
    if options.json:
        print_json(as_json(place, key, now, names))
    else:
        show(place, key, now, names)
    return 0


def place_of(log: str, now: State, keyspace: str, token: int) -> Place:
    """Asks the program for the row of a token, and for its quorums."""
    levels = levels_of(keyspace, now.replications[keyspace])
    with copy_of(log) as copy, Session(words_on(copy)) as session:
        queries = [f"{words.format(epoch=now.epoch)} {token}" for _, words in levels]
        answers = session.ask_all(queries)
    quorums = {level: read_quorum(it[0]) for ((_, level), _), it in zip(levels, answers)}
    return Place(token, row_at(now.place(keyspace), token), quorums)


def show(place: Place, key: bytes, now: State, names: Names) -> None:
    """Prints where a key stands."""
    row = row_name(place.row.left, place.row.right)
    print(f"key 0x{key.hex()}, token {place.token}, range {row} at epoch {now.epoch}\n")
    replicas = [["replica", "datacenter", "rack", "use"]]
    replicas += [[*said_of(it, now, names), use_of(it, place.row)] for it in replicas_of(place.row)]
    print_lines(table(replicas), "  ")
    print()
    levels = [["level", "reads wait for", "writes wait for"]]
    for level, it in place.levels.items():
        needs = (f"{it.read_need} of {len(it.reads)}", f"{it.write_need} of {len(it.writes)}")
        levels.append([level_said(level, names), *needs])
    print_lines(table(levels), "  ")


def replicas_of(row: Row) -> List[int]:
    """Returns the nodes that are read or written, by their ids."""
    return sorted({*row.reads, *row.writes})


def said_of(node: int, now: State, names: Names) -> List[str]:
    """Returns a node with its datacenter and rack, by their names of Cassandra."""
    it = now.by_id[node]
    return [names.there("node", it.name), names.there("datacenter", it.dc), names.there("rack", it.rack)]


def use_of(node: int, row: Row) -> str:
    """Returns whether a node is read, written or both."""
    if node in row.reads:
        return "read and written" if node in row.writes else "read only"
    return "written only (pending)"


def as_json(place: Place, key: bytes, now: State, names: Names) -> Dict[str, object]:
    """Returns where a key stands as JSON has it."""

    def named(nodes: Sequence[int]) -> List[str]:
        return [names.there("node", now.by_id[it].name) for it in nodes]

    return {
        "epoch": now.epoch,
        "key": key.hex(),
        "token": str(place.token),
        "range": row_name(place.row.left, place.row.right),
        "read": named(place.row.reads),
        "written": named(place.row.writes),
        "levels": {
            level_said(level, names): {
                "reads": {"need": it.read_need, "of": named(it.reads)},
                "writes": {"need": it.write_need, "of": named(it.writes)},
            }
            for level, it in place.levels.items()
        },
    }
