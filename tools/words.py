"""Words that several verbs share."""
from __future__ import annotations

import argparse
import re
from typing import Iterator, List, Optional

from tools.errors import Refused, WrongWords
from tools.files import check_output
from tools.log import State
from tools.names import Names
from tools.near import meant
from tools.terms import NAME, listed


def add_log(parser: argparse.ArgumentParser) -> None:
    """Declares the log file."""
    parser.add_argument("log", metavar="LOG", help="the log file, or DISK:LOG; LOG.names beside it has names that differ")


def add_json(parser: argparse.ArgumentParser) -> None:
    """Declares `--json`."""
    parser.add_argument("--json", action="store_true", help="print JSON, with tokens as texts")


def add_output(group: argparse._ActionsContainer, parser: argparse.ArgumentParser, word: str, said: str) -> None:
    """Declares a file that is written: no input, no log, and no file that is there unless `--force` is given."""
    group.add_argument(word, metavar="FILE", help=said)
    parser.add_argument("--force", action="store_true", help="write over a FILE that is there")
    parser.set_defaults(output=word.lstrip("-"))


def check_outputs(options: argparse.Namespace) -> None:
    """Checks the file that a verb is to write, before anything else is done."""
    said = vars(options)
    path = said.get(said.get("output", ""))
    if path:
        check_output(path, inputs_of(options), options.force)


def inputs_of(options: argparse.Namespace) -> Iterator[str]:
    """Gives each file that words may name as an input, and the file of names beside it."""
    for name, value in vars(options).items():
        if isinstance(value, str) and name not in ("output", options.output, "verb"):
            yield "/dev/stdin" if value == "-" else value
            yield f"{value}.names"


def add_keyspaces(parser: argparse.ArgumentParser) -> None:
    """Declares `--keyspace`."""
    parser.add_argument(
        "--keyspace", metavar="KS", action="append", default=[], help="show this keyspace alone; may be repeated"
    )


def add_cluster(parser: argparse.ArgumentParser) -> None:
    """Declares `--cluster`."""
    parser.add_argument(
        "--cluster", metavar="NAME", type=name_of_cluster, help="the name of the cluster, for a log that is made"
    )


def name_of_cluster(word: str) -> str:
    """Returns a word that can be the name of a cluster."""
    if not NAME.fullmatch(word):
        raise argparse.ArgumentTypeError("the name of a cluster is 1 to 32 of the characters A-Z a-z 0-9 _ - .")
    return word


def epoch_of(word: str) -> Optional[int]:
    """Returns the epoch that a word such as @12 names, None for @last."""
    if word == "@last":
        return None
    if not re.fullmatch(r"@(0|[1-9][0-9]{0,18})", word):
        raise WrongWords(f"an epoch is @ and a number, such as @12, or @last, not {word}")
    return int(word[1:])


def keyspace_named(said: str, now: State, names: Names) -> str:
    """Returns the name in the log of a keyspace that is there."""
    name = names.here("keyspace", said)
    if name not in now.replications:
        there = [names.there("keyspace", it) for it in sorted(now.replications)]
        raise Refused(
            f"no keyspace {said} at epoch {now.epoch}, only {listed(there)}{meant(said, there)}"
        )
    return name


def chosen_keyspaces(said: List[str], now: State, names: Names) -> List[str]:
    """Returns the keyspaces that words name, or all, by their names in the log."""
    return sorted({keyspace_named(it, now, names) for it in said}) if said else sorted(now.replications)
