"""Prints the commands that make a bundle of a cluster, for bin/cluster import."""
from __future__ import annotations

import argparse
import shlex
from typing import List

from tools.bundle import CLUSTER, RING, SCHEMA, STATUS

EXAMPLE = """example:
  bin/collect shop | sh                      # on a machine with nodetool and cqlsh
  bin/collect shop --nodetool 'nodetool -h 10.0.0.1' --cqlsh 'cqlsh 10.0.0.1' > collect.sh
  bin/cluster import shop --log shop.log

The commands change nothing in the cluster. Let no schema and no node change while they run."""
NAMES = r"""s/^CREATE KEYSPACE \(IF NOT EXISTS \)\{0,1\}\("[^"]*"\|[A-Za-z0-9_]*\) .*/\2/p"""


def parser_of() -> argparse.ArgumentParser:
    """Returns what reads the words."""
    parser = argparse.ArgumentParser(
        prog="collect",
        description="Prints the commands of nodetool and cqlsh that make a folder for bin/cluster import.",
        epilog=EXAMPLE,
        formatter_class=argparse.RawDescriptionHelpFormatter,
        allow_abbrev=False,
    )
    parser.add_argument("folder", metavar="FOLDER", nargs="?", default="bundle", help="the folder; bundle is the default")
    parser.add_argument("--nodetool", metavar="COMMAND", default="nodetool", help="nodetool with its options")
    parser.add_argument("--cqlsh", metavar="COMMAND", default="cqlsh", help="cqlsh with its options")
    return parser


def commands(folder: str, nodetool: str, cqlsh: str) -> List[str]:
    """Returns the commands."""
    there = shlex.quote(folder)
    return [
        "set -e",
        f"mkdir -p {there}",
        f"{nodetool} ring > {there}/{RING}",
        f"{nodetool} status > {there}/{STATUS}",
        f"{nodetool} describecluster > {there}/{CLUSTER}",
        f"{cqlsh} -e 'DESCRIBE FULL SCHEMA' > {there}/{SCHEMA}",
        "# The keyspaces that have replicas: the others are of LocalStrategy",
        f"sed -n '/LocalStrategy/d;{NAMES}' {there}/{SCHEMA} | tr -d '\"' | while read -r keyspace; do",
        f"    {nodetool} describering \"$keyspace\" < /dev/null > {there}/\"describering-$keyspace.txt\"",
        "done",
    ]


def main(words: List[str]) -> int:
    """Prints the commands, and returns the status."""
    options = parser_of().parse_args(words)
    print("\n".join(commands(options.folder, options.nodetool, options.cqlsh)))
    return 0
