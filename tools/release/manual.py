"""Man pages of the help texts and of docs/: tcm(1), tcm-cluster(1), tcm-disk(1) and tcm-log(5)."""
from __future__ import annotations

import argparse
import os
import re
from typing import Dict, List

from tools import collect, disk
from tools.main import every_verb, parser_of, version
from tools.program import TOP
from tools.release.roff import escaped, from_markdown, inline, page, verbatim

OF_LOG = ("The log file", "A log of format 1", "States of a log", "Valid images", "Refused files", "Limits")
SEE_ALSO = {
    "tcm": "tcm\\-cluster(1), tcm\\-disk(1), tcm\\-log(5)",
    "tcm-cluster": "tcm(1), tcm\\-collect(1), tcm\\-log(5)",
    "tcm-collect": "tcm\\-cluster(1)",
    "tcm-disk": "tcm(1)",
    "tcm-log": "tcm(1)",
}


def read(*path: str) -> List[str]:
    """Returns the lines of a file of the repository."""
    with open(os.path.join(TOP, *path), encoding="utf-8") as it:
        return with_installed_names(it.read()).splitlines()


def sections(lines: List[str]) -> Dict[str, List[str]]:
    """Returns the sections of a page, each with its heading."""
    found: Dict[str, List[str]] = {}
    name = ""
    for line in lines:
        if line.startswith("## "):
            name = line[3:]
        found.setdefault(name, []).append(line)
    return found


def parts_of_help(lines: List[str]) -> Dict[str, List[str]]:
    """Returns the parts of the help of tcm: what stands before the first head, and the lines of each head."""
    found: Dict[str, List[str]] = {}
    name = ""
    for line in lines:
        if re.match(r"\w.*:$", line):
            name = line[:-1].split(",")[0]
        else:
            found.setdefault(name, []).append(line)
    return found


def items(lines: List[str]) -> List[str]:
    """Returns the lines of a part of the help as tagged paragraphs; a line farther right is an example."""
    made: List[str] = []
    for line in filter(str.strip, lines):
        head = re.match(r"  (\S.*?) {2,}(\S.*)", line)
        if head:
            made += [".TP", f"\\fB{escaped(head[1])}\\fR", escaped(head[2])]
        else:
            made += [".br", f"\\fI{escaped(line.strip())}\\fR"]
    return made


def of_tcm() -> List[str]:
    """Returns tcm(1): its help, and the table of statuses."""
    help_ = parts_of_help(read("bin", "lib", "help.txt"))
    usage, *about = [it for it in help_[""] if it]
    made = page("tcm", 1, "keeps the cluster metadata of an Apache Cassandra cluster", version())
    made += [".SH SYNOPSIS", escaped(usage[len("usage: ") :]), ".SH DESCRIPTION", *map(escaped, about)]
    made += [".SH COMMANDS", *items(help_["commands"]), ".SH OPTIONS", *items(help_["options"])]
    statuses = sections(read("docs", "operators.md"))["After each status"]
    return made + [".SH EXIT STATUS", *from_markdown(statuses[1:])]


def of_parser(name: str, about: str, parser: argparse.ArgumentParser) -> List[str]:
    """Returns the man page of a parser, which may have verbs."""
    made, words_ = page(name, 1, about, version()), "VERB .." if verbs_of(parser) else ".."
    made += [".SH SYNOPSIS", f"\\fB{escaped(name)}\\fR {words_}", ".SH DESCRIPTION"]
    made += verbatim(help_of(parser)[1:])
    for verb, words in verbs_of(parser).items():
        made += [f'.SH "{escaped(verb).upper()}"', *verbatim(help_of(words))]
    return made


def verbs_of(parser: argparse.ArgumentParser) -> Dict[str, argparse.ArgumentParser]:
    """Returns the parser of each verb."""
    groups = [it for it in parser._actions if isinstance(it, argparse._SubParsersAction)]
    return {name: verb for group in groups for name, verb in group.choices.items()}


def help_of(parser: argparse.ArgumentParser) -> List[str]:
    """Returns the lines of a parser's help, on a page of 80 columns."""
    os.environ["COLUMNS"] = "80"
    return with_installed_names(parser.format_help()).splitlines()


def with_installed_names(text: str) -> str:
    """Returns a text with the names of commands as they are installed."""
    return re.sub(r"\bbin/(cluster|disk|collect)\b", r"tcm \1", text).replace("bin/tcm", "tcm")


def of_log() -> List[str]:
    """Returns tcm-log(5): the sections of docs/language.md on files."""
    found = sections(read("docs", "language.md"))
    made = page("tcm-log", 5, "the log file of tcm, states, and why a line is refused", version())
    made += [".SH DESCRIPTION", inline("A log file has the accepted commands of a cluster, one a line.")]
    return made + [line for name in OF_LOG for line in from_markdown(found[name])]


def pages() -> Dict[str, str]:
    """Returns the man pages by their names and sections, such as tcm.1."""
    plan = "plans changes of an Apache Cassandra cluster by the names of nodes"
    made = {
        "tcm.1": of_tcm(),
        "tcm-cluster.1": of_parser("tcm-cluster", plan, parser_of(every_verb())),
        "tcm-collect.1": of_parser("tcm-collect", "prints the commands that make a bundle", collect.parser_of()),
        "tcm-disk.1": of_parser("tcm-disk", "looks into a disk of tcm, and puts files on it", disk.parser_of()),
        "tcm-log.5": of_log(),
    }
    for name, lines in made.items():
        lines += [".SH SEE ALSO", SEE_ALSO[name[:-2]]]
    return {name: "\n".join(lines) + "\n" for name, lines in made.items()}
