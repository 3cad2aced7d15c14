"""The command line of bin/trials."""
from __future__ import annotations

import argparse
import importlib
import os
import pkgutil
import sys
import time
from typing import Dict, List, Sequence

import trials.kinds
from trials.kind import Kind
from trials.rows import RELEASE, add, faults_of_page
from trials.trial import Outcome, Plan, tried

EPILOG = "Status 1 tells that something differed; docs/trials.md has more.\n\nexample:\n  bin/trials kills --minutes 2"
MOST_SHOWN = 12  # of what didn't come up


def all_kinds() -> Dict[str, Kind]:
    """Returns the kinds by name, each from its module in trials/kinds/."""
    names = sorted(it.name for it in pkgutil.iter_modules(trials.kinds.__path__))
    modules = [importlib.import_module(f"trials.kinds.{it}") for it in names]
    kinds: List[Kind] = [it.KIND for it in modules if hasattr(it, "KIND")]
    return {it.name: it for it in kinds}


def parser_of(kinds: Dict[str, Kind]) -> argparse.ArgumentParser:
    """Returns the parser of the words."""
    listed = "\n".join(f"  {it.name:10} {it.help}" for it in kinds.values())
    parser = argparse.ArgumentParser(
        "trials",
        description="Tries the program, by cases that are drawn from a seed.",
        epilog=f"kinds:\n{listed}\n\n{EPILOG}",
        formatter_class=argparse.RawDescriptionHelpFormatter,
    )
    parser.add_argument("kinds", metavar="KIND", nargs="*", help="what to try: all kinds, if none is named")
    parser.add_argument("--seed", type=int, help="the seed of the first case; the clock gives one if it is left out")
    length = parser.add_mutually_exclusive_group()
    length.add_argument("--minutes", type=float, default=1.0, help="how long each kind is tried (1)")
    length.add_argument("--count", type=int, help="how much of what it counts each kind tries")
    parser.add_argument("--program", default=os.environ.get("TCM") or RELEASE, help="the program (dist/tcm)")
    parser.add_argument("--kept", default="failed-trials", help="the folder of cases that differed (failed-trials)")
    parser.add_argument("--most", type=int, default=5, help="how many cases may differ before a kind ends (5)")
    parser.add_argument("--covered", action="store_true", help="print how often each thing came up")
    parser.add_argument("--check", action="store_true", help="only print what is wrong with docs/trials.md")
    parser.add_argument("--record", action="store_true", help="add rows to trials/rows.csv and docs/trials.md")
    return parser


def line_of(outcome: Outcome) -> str:
    """Returns the line of the table for a kind."""
    kind = outcome.kind
    if outcome.skipped:
        return f"{kind.name:10} skipped: {outcome.skipped}"
    counted, cases = f"{outcome.count:,} {kind.unit}", f"{outcome.cases:,} cases"
    ended = f"{len(outcome.differences)} differed" if outcome.differences else "right"
    return f"{kind.name:10} {counted:>28} {cases:>15} {outcome.seconds:>7.0f} s  seed {outcome.seed}  {ended}"


def report(outcome: Outcome, covered: bool) -> None:
    """Prints what came of a kind."""
    print(line_of(outcome))
    for folder in outcome.differences:
        print(f"  {folder}/difference says what differed, and {folder}/repeat how to repeat it")
    if covered:
        for name, count in sorted(outcome.covered.items()):
            print(f"  {name:40} {count:>12,}")
    missing = [] if outcome.skipped else outcome.uncovered()
    if missing:
        more = f" and {len(missing) - MOST_SHOWN} more" if len(missing) > MOST_SHOWN else ""
        print(f"  didn't come up: {', '.join(missing[:MOST_SHOWN])}{more}")


def main(words: Sequence[str]) -> int:
    """Tries the kinds that the words name, and returns the status."""
    kinds = all_kinds()
    parser = parser_of(kinds)
    given = parser.parse_args(words)
    for name in given.kinds:
        if name not in kinds:
            parser.error(f"no kind {name}; there are {', '.join(kinds)}")
    if given.check:
        faults = faults_of_page(kinds)
        print("".join(f"{it}\n" for it in faults), end="")
        return 1 if faults else 0
    program = os.path.abspath(given.program)
    if not os.access(program, os.X_OK):
        parser.error(f"{program} can't be run")
    seed = int(time.time()) if given.seed is None else given.seed
    plan = Plan(seed, given.minutes, given.count, program, os.path.abspath(given.kept), given.most)
    outcomes = []
    for name in given.kinds or kinds:
        outcomes.append(tried(kinds[name], plan))
        report(outcomes[-1], given.covered)
        sys.stdout.flush()
    if given.record:
        add(outcomes, program)
    return 1 if any(it.failed() for it in outcomes) else 0
