"""The words by which verbs are asked for a runbook."""
from __future__ import annotations

import argparse
from typing import Dict

from tools.runbook.loads import read_loads
from tools.runbook.versions import VERSIONS, Version
from tools.text import name_of, read_lines


def add_runbook(parser: argparse.ArgumentParser) -> None:
    """Declares `--runbook` and `--load`."""
    parser.add_argument(
        "--runbook", metavar="VERSION", choices=sorted(VERSIONS), help="print the steps for people, in Markdown, "
        f"for a version of Cassandra: {', '.join(sorted(VERSIONS))}"
    )
    parser.add_argument(
        "--load", metavar="FILE", help="what nodetool status printed: with it a runbook estimates sizes"
    )


def version_of(options: argparse.Namespace) -> Version:
    """Returns the version that was asked for."""
    return VERSIONS[options.runbook]


def loads_of(options: argparse.Namespace) -> Dict[str, int]:
    """Returns the Load of each node, none if no file has it."""
    return read_loads(read_lines(options.load), name_of(options.load)) if options.load else {}
