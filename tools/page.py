"""The verb `page`: a page for browsers with each epoch of a log, and with those of a plan."""
from __future__ import annotations

import argparse
import base64
import hashlib
import json
import os
import sys
from typing import Dict, List, Optional

from tools.errors import WrongWords
from tools.files import object_in, scratch
from tools.history import History
from tools.log import cluster_of, copy_of, state, words_on
from tools.names import names_of
from tools.page_data import Data
from tools.planned import PlannedStep, try_plan
from tools.program import TOP, Session
from tools.words import add_log, epoch_of

NAME, HELP = "page", "make a page for browsers of the epochs of a log, and of a plan"
EXAMPLE = """The page is one file that needs no network: open it from disk. Its address keeps what is shown.

example:
  bin/cluster page cluster.log > cluster.html
  bin/cluster page cluster.log --plan plan.script > plan.html"""

SOURCES = os.path.join(TOP, "tools", "pages")
MOST_EPOCHS = 200  # of the log that are shown


def words(parser: argparse.ArgumentParser) -> None:
    """Declares the words of the verb."""
    add_log(parser)
    parser.add_argument("--plan", metavar="SCRIPT", help="show a script for apply too, tried on a copy of the log")
    parser.add_argument(
        "--from", dest="begin", metavar="LINE", type=int, default=1, help="begin with this line of the plan"
    )
    parser.add_argument(
        "--since",
        metavar="@EPOCH",
        help=f"the first epoch to show; the last {MOST_EPOCHS} of the log are the default",
    )


def run(options: argparse.Namespace) -> int:
    """Writes the page to standard output."""
    if options.begin != 1 and not options.plan:
        raise WrongWords("--from is for a plan")
    since = epoch_of(options.since) if options.since else None
    with copy_of(options.log) as copy:
        data = data_of(options, copy, since)
    sys.stdout.write(page_of(data))
    return 0


def data_of(options: argparse.Namespace, copy: str, since: Optional[int]) -> Dict[str, object]:
    """Returns the data of the page."""
    names, last = names_of(options.log), state(copy, name=options.log).epoch
    first = max(0, last - MOST_EPOCHS) if since is None else min(since, last)
    with Session(words_on(copy)) as session, scratch() as folder:
        steps: List[PlannedStep] = []
        if options.plan:
            steps = try_plan(options.plan, options.begin, copy, names, session)
        entries = whole_lines(copy)
        history = History(session, [object_in(it)["command"] for it in entries[1:]])
        data = Data(names, history, entries, folder)
        for moment in history.moments(first):
            data.add(moment)
    head = {"cluster": cluster_of(options.log) or "", "log": os.path.basename(options.log), "last": last}
    return {**head, **data.as_json(), "plan": [vars(it) for it in steps]}


def whole_lines(path: str) -> List[bytes]:
    """Returns the lines of a log file, without bytes after the last line feed."""
    with open(path, "rb") as lines:
        return [it for it in lines if it.endswith(b"\n")]


def page_of(data: Dict[str, object]) -> str:
    """Returns the page: its parts put together, with a policy that allows its own style and script alone."""
    html, style, script = (source(f"page.{it}") for it in ("html", "css", "js"))
    policy = (
        f"default-src 'none'; style-src '{checksum(style)}'; script-src '{checksum(script)}'; "
        "base-uri 'none'; form-action 'none'"
    )
    parts = {"POLICY": policy, "STYLE": style, "SCRIPT": script, "DATA": embedded(data)}
    head, *rest = html.split("{{")
    return head + "".join(parts[name] + text for name, text in (it.split("}}", 1) for it in rest))


def source(name: str) -> str:
    """Returns a part of the page."""
    with open(os.path.join(SOURCES, name), encoding="utf-8") as it:
        return it.read()


def checksum(text: str) -> str:
    """Returns the checksum by which a policy knows a style or a script."""
    return "sha256-" + base64.b64encode(hashlib.sha256(text.encode()).digest()).decode()


def embedded(data: Dict[str, object]) -> str:
    """Returns JSON that stands in a page: without angle brackets, so that no text in it ends the element."""
    text = json.dumps(data, separators=(",", ":"))
    return text.replace("<", "\\u003c").replace(">", "\\u003e").replace("&", "\\u0026")
