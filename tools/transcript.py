"""The verb `answers`: each line of a script with its answer, as the pages show them."""
from __future__ import annotations

import argparse
from typing import List, Tuple

from tools.answers import framed, is_refusal
from tools.errors import Refused
from tools.log import copy_of, words_on
from tools.program import Run, run as run_program
from tools.show import print_json, print_lines, say
from tools.text import script_lines
from tools.words import add_json

NAME, HELP = "answers", "show each line of a script with its answer"
EXAMPLE = """example:
  bin/cluster answers examples/join.script
  bin/cluster answers tomorrow.script --on cluster.log     # on a copy: the log stays as it is"""


def words(parser: argparse.ArgumentParser) -> None:
    """Declares the words of the verb."""
    parser.add_argument("script", metavar="SCRIPT", help="a script for bin/tcm commit; - is standard input")
    parser.add_argument(
        "--on", metavar="LOG", help="answer from the log in this file on, on a copy; an empty log is the default"
    )
    add_json(parser)


def run(options: argparse.Namespace) -> int:
    """Shows lines and answers, and returns 1 where a line was refused."""
    lines = script_lines(options.script)
    script = "".join(f"{it}\n" for it in lines).encode("utf-8", "surrogateescape")
    if options.on:
        with copy_of(options.on) as copy:
            ended = run_program(["commit", *words_on(copy)], script)
    else:
        ended = run_program(["commit"], script)
    pairs = pairs_of(lines, ended)
    if options.json:
        print_json([{"line": shown(line), "answer": answer} for line, answer in pairs])
    else:
        for line, answer in pairs:
            say(f"> {shown(line)}")
            print_lines(answer)
    if ended.status != 0:
        raise Refused(f"tcm ended with status {ended.status}: {' '.join(ended.lines[-1:])}")
    return 1 if any(is_refusal(answer) for _, answer in pairs) else 0


def pairs_of(lines: List[str], ended: Run) -> List[Tuple[str, List[str]]]:
    """Returns each line that was answered with its answer."""
    if ended.status == 3:
        return []
    return list(zip(lines, (answer for _, answer in framed(ended.lines))))


def shown(line: str) -> str:
    """Returns a line as it can be printed."""
    return line.encode("utf-8", "surrogateescape").decode("utf-8", "replace")
