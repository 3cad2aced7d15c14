"""The command line of `bin/cluster`: one verb a module, each with NAME, HELP, EXAMPLE, words and run."""
from __future__ import annotations

import argparse
import importlib
import os
import sys
import traceback
from types import ModuleType
from typing import Any, IO, List, NoReturn, Optional, Sequence

from tools.errors import Refused, WrongWords
from tools.process import close_output, settle
from tools.program import TOP
from tools.text import shown
from tools.words import check_outputs

VERBS = ("importer", "status", "where", "compare", "whatif", "moves", "apply", "lint", "transcript", "draw", "page")
ABOUT = (
    "Plans the metadata of a Cassandra cluster with bin/tcm, a model of it. "
    "No Cassandra process is asked or changed."
)
EPILOG = """example:
  bin/cluster status cluster.log

environment:
  TCM     the program to run in the place of bin/tcm

statuses: 0 done, 1 something doesn't fit or a difference found, 2 wrong words; apply: 3 a command is refused, 4 a question
isn't answered with yes, 5 an answer is missing; 125 no program, or another process writes the log.
docs/tutorial.md shows the verbs at work."""

MOST_SHOWN = 600  # characters of a message


class Parser(argparse.ArgumentParser):
    """A parser whose messages are short, and without control characters."""

    def error(self, message: str) -> NoReturn:
        """Ends with the usage and a message."""
        super().error(shown(message, MOST_SHOWN))

    def _print_message(self, message: str, file: Optional[IO[str]] = None) -> None:
        """Prints, and doesn't pass over an output that can't be written, as some versions of argparse do."""
        (file or sys.stderr).write(message)


def version() -> str:
    """Returns the version that the file VERSION has."""
    with open(os.path.join(TOP, "VERSION"), encoding="ascii") as it:
        return it.read().strip()


def every_verb() -> List[ModuleType]:
    """Returns the modules of all verbs."""
    return [importlib.import_module(f"tools.{it}") for it in VERBS]


def parser_of(modules: Sequence[Any]) -> argparse.ArgumentParser:
    """Returns what reads the words of all verbs."""
    shape = argparse.RawDescriptionHelpFormatter
    parser = Parser(prog="cluster", description=ABOUT, epilog=EPILOG, formatter_class=shape, allow_abbrev=False)
    parser.add_argument("--version", action="version", version=f"cluster {version()}")
    verbs = parser.add_subparsers(dest="verb", metavar="VERB", required=True)
    for module in modules:
        about = module.HELP[0].upper() + module.HELP[1:] + "."
        verb = verbs.add_parser(
            module.NAME,
            help=module.HELP,
            description=about,
            epilog=module.EXAMPLE,
            formatter_class=shape,
            allow_abbrev=False,
        )
        module.words(verb)
        verb.set_defaults(run=module.run, parser=verb)
    return parser


def main(words: List[str]) -> int:
    """Runs a verb, and returns the status."""
    if not settle():
        return fail("cluster", "standard output is closed")
    try:
        try:
            return run(parser_of(every_verb()).parse_args(words))
        finally:
            sys.stdout.flush()
    except BrokenPipeError:
        close_output()
        return 141
    except OSError as why:
        close_output()
        return fail("cluster", f"{why.filename or 'standard output'}: {why.strerror}")
    except KeyboardInterrupt:
        return 130


def run(options: argparse.Namespace) -> int:
    """Runs the verb of some words, and returns the status."""
    name = f"cluster {options.verb}"
    try:
        check_outputs(options)
        return int(options.run(options))
    except WrongWords as why:
        options.parser.print_usage(sys.stderr)
        return fail(name, str(why), 2)
    except Refused as why:
        sys.stdout.flush()
        return fail(name, str(why), why.status)
    except MemoryError:
        return fail(name, "memory ran out")
    except (OSError, KeyboardInterrupt):
        raise
    except Exception as why:  # pylint: disable=broad-exception-caught
        at = traceback.extract_tb(why.__traceback__)[-1]
        return fail(name, f"a fault of the planner, at {os.path.basename(at.filename)}:{at.lineno}: {why!r}")


def fail(name: str, why: str, status: int = 1) -> int:
    """Says on standard error why a verb ends, and returns the status."""
    for line in why.split("\n"):
        print(f"{name}: {shown(line, MOST_SHOWN)}", file=sys.stderr)
    return status
