"""The verb `lint`: the lines of a script that have no form, with column and the word that was expected."""
from __future__ import annotations

import argparse
from typing import List, Optional, Tuple

from tools.grammar import COMMANDS, Fault, fault_of, fault_of_command
from tools.names import Names
from tools.script import HEAD, translate
from tools.show import print_json, say
from tools.terms import plural
from tools.text import name_of, script_lines, shown
from tools.words import add_json

NAME, HELP = "lint", "find the lines of a script that would be answered NO BAD-LINE"
EXAMPLE = """example:
  bin/cluster lint join.script
  bin/cluster lint plan.script     # a plan, with names in the place of ids"""


def words(parser: argparse.ArgumentParser) -> None:
    """Declares the words of the verb."""
    parser.add_argument("script", metavar="SCRIPT", help="a script for bin/tcm commit, or for apply; - is standard input")
    add_json(parser)


def run(options: argparse.Namespace) -> int:
    """Shows the faults of a script, and returns 1 where it has any."""
    lines = script_lines(options.script)
    check = fault_of_step if is_plan(lines) else fault_of
    faults = [(i, it) for i, it in ((i, check(line)) for i, line in enumerate(lines, 1)) if it]
    if options.json:
        print_json([{"line": i, "column": it.column, "why": it.why} for i, it in faults])
    else:
        show(name_of(options.script), len(lines), faults)
    return 1 if faults else 0


def is_plan(lines: List[str]) -> bool:
    """Returns whether lines are a script for apply, as plans are: it begins with a command that has no id."""
    said = (line.split() for line in lines)
    first = next((it for it in said if it and not it[0].startswith("#")), [""])
    return any(HEAD.fullmatch(it) for it in lines[:2]) or first[0] in COMMANDS


def fault_of_step(line: str) -> Optional[Fault]:
    """Returns the fault of a line of a script for apply, where names stand for nodes and lines may be remarks."""
    said = line.split()
    if not said or said[0].startswith("#"):
        return None
    if said[0] == "commit":
        return fault_of(line)
    if said[0] not in COMMANDS:
        return Fault(line.index(said[0]) + 1, f"a command is expected, not `{shown(said[0], 40)}`")
    here = " ".join(translate(tuple(said), Names()))
    fault = fault_of_command(here, lambda _: True)
    return fault and Fault(fault.column if here == line else 1, fault.why)


def show(name: str, count: int, faults: List[Tuple[int, Fault]]) -> None:
    """Prints faults, or that there are none."""
    for i, it in faults:
        say(f"{name}:{i}:{it.column}: {it.why}")
    if not faults:
        say(f"{name}: {plural(count, 'line')}, each in one of the forms")
