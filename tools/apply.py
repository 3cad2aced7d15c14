"""The verb `apply`: commands with names in the place of ids go to a log, with a question where it matters."""
from __future__ import annotations

import argparse
import sys
from contextlib import ExitStack
from typing import Callable, Dict, List, Sequence

from tools import names as naming
from tools.committer import Committer, Done, in_order
from tools.errors import Refused
from tools.grammar import fault_of_command
from tools.lock import Lock
from tools.log import cluster_of, copy_of, epochs_by_id, is_absent_or_empty, last_epoch, words_on
from tools.names import Names, names_of
from tools.on_disk import place_of
from tools.program import Session
from tools.questions import KINDS, confirm, kind_of, question
from tools.script import Script, Step, read_script, translate
from tools.terms import plural
from tools.words import add_cluster

NAME, HELP = "apply", "commit a script with names in the place of ids, and ask before steps that change reads or writes"
EXAMPLE = """example of a script (# begins a remark):
  register 10.0.1.16 east rack1
  prepare-replace 10.0.1.16 10.0.1.12
  start-replace 10.0.1.16
  # stream the data, and then:
  mid-replace 10.0.1.16
  finish-replace 10.0.1.16

The program first answers the whole script on a copy: if it refuses a line, nothing is done. Lines that are in the log
already are passed over, so the same words go on where a run was stopped.

example:
  bin/cluster apply cluster.log replace.script --dry-run
  bin/cluster apply cluster.log replace.script
  bin/cluster apply cluster.log replace.script --yes start   # another kind of question is still asked"""

LONG = 100  # lines, from which on progress is shown


def words(parser: argparse.ArgumentParser) -> None:
    """Declares the words of the verb."""
    parser.add_argument("log", metavar="LOG", help="the log file; with --cluster it is made if it is absent")
    parser.add_argument(
        "script", metavar="SCRIPT", help="commands, one a line, with names of nodes; - is standard input"
    )
    parser.add_argument(
        "--from", dest="begin", metavar="LINE", type=int, default=1, help="begin with this line of the script"
    )
    parser.add_argument("--dry-run", action="store_true", help="try it on a copy: the log stays as it is")
    parser.add_argument(
        "--yes", metavar="KIND", choices=KINDS, action="append", default=[],
        help="answer the questions of this kind with yes: start, mid, finish, or epoch; may be repeated",
    )
    parser.add_argument("--wait", metavar="SECONDS", type=float, default=0.0, help="wait for another writer of the log")
    parser.add_argument("--no-lock", action="store_true", help="go on without a lock: nothing else may write the log")
    add_cluster(parser)


def run(options: argparse.Namespace) -> int:
    """Applies a script."""
    script = read_script(options.script)
    steps = [it for it in script.steps if it.line >= options.begin]
    if not steps:
        raise Refused(f"{script.name}: no command is there from line {options.begin} on")
    names = names_of(options.log)
    check_forms(script, steps, names)
    with ExitStack() as stack:
        locks: Sequence[int] = []
        if not options.dry_run and not options.no_lock:
            locks = stack.enter_context(Lock(locked_path(options.log), options.wait)).held
        commit = words_for(options, script)
        epoch = 0 if is_absent_or_empty(options.log) else last_epoch(options.log)
        used = epochs_by_id(options.log)
        found = tried(options, script, steps, lambda it: Committer(it, names, epoch, dict(used)))
        if options.dry_run:
            print(f"{plural(len(steps), 'command')} accepted on a copy; the log is as it was")
            return 0
        rest = passed_over(script, found)
        if rest and script.cluster:
            check_epoch(options, script, epoch, used)
        if rest:
            names.save(naming.path_of(options.log))
            session = stack.enter_context(Session(commit, locks))
            apply(options, script, rest, Committer(session, names, epoch, used))
    return 0


def locked_path(log: str) -> str:
    """Returns the file that is locked for a log: its disk, if it is on one."""
    place = place_of(log)
    return place.disk if place else log


def words_for(options: argparse.Namespace, script: Script) -> List[str]:
    """Returns the words after `tcm commit`, once cluster and plan are seen to fit the log."""
    named, given = cluster_of(options.log), options.cluster
    if named and given not in (None, named):
        raise Refused(f"{options.log}: this is the log of the cluster {named}, and not of {given}")
    cluster = named or given
    if script.cluster and cluster and script.cluster != cluster:
        raise Refused(f"{script.name}: this is a plan of the cluster {script.cluster}, and {options.log} is of {cluster}")
    if not cluster and not options.dry_run:
        raise Refused(f"{options.log}: a log that is made needs the name of its cluster: --cluster NAME")
    return [options.log, cluster or "copy"]


def check_forms(script: Script, steps: List[Step], names: Names) -> None:
    """Checks the form of all commands."""
    for step in steps:
        wrong = fault_of_command(" ".join(translate(step.words, names)), lambda _: True)
        if wrong:
            raise script.at(step, f"{wrong.why}; nothing is done")


def check_epoch(options: argparse.Namespace, script: Script, epoch: int, used: Dict[int, int]) -> None:
    """Asks where the log has commands since the plan was made that aren't the plan's."""
    if epoch < script.epoch:
        raise Refused(f"{script.name}: the plan is of epoch {script.epoch}, and {options.log} has only {epoch} epochs")
    ours = {it.id for it in script.steps}
    since = [at for number, at in used.items() if at > script.epoch and number not in ours]
    if since:
        said = f"the log has {plural(len(since), 'command')} since epoch {script.epoch} that aren't of this plan. Go on?"
        confirm(script.name, said, "epoch", options.yes)


def tried(
    options: argparse.Namespace, script: Script, steps: List[Step], committer_on: Callable[[Session], Committer]
) -> List[Done]:
    """Returns what becomes of the commands on a copy, where each has to be accepted."""
    found: List[Done] = []
    with ExitStack() as stack:
        is_new = is_absent_or_empty(options.log)
        copy = [] if is_new else words_on(stack.enter_context(copy_of(options.log)))
        committer = committer_on(stack.enter_context(Session(copy)))
        for step in steps:
            try:
                found.append(committer.commit(script, step))
            except Refused as why:
                raise type(why)(f"{why}; tried on a copy, and nothing is done") from why
            if options.dry_run:
                say(f"{script.name}:{step.line}: {step.said}: OK {found[-1].epoch}")
        in_order(script, found)
    return found


def passed_over(script: Script, found: List[Done]) -> List[Step]:
    """Returns the commands that are still to be committed, and tells which are in the log already."""
    before = [it for it in found if it.again]
    if before:
        last = before[-1]
        are = "is" if len(before) == 1 else "are"
        print(
            f"{script.name}:{last.step.line}: {plural(len(before), 'command')} up to here {are} in the log already, up "
            f"to epoch {last.epoch}, and {are} passed over",
            flush=True,
        )
    return [it.step for it in found if not it.again]


def apply(options: argparse.Namespace, script: Script, steps: List[Step], committer: Committer) -> None:
    """Commits commands, with the questions before them."""
    for done, step in enumerate(steps):
        progress(done, len(steps))
        kind = kind_of(step)
        if kind:
            where = f"{script.name}:{step.line}: {step.said}"
            confirm(where, question(script, step, committer.epoch), kind, options.yes)
        say(f"{script.name}:{step.line}: {step.said}: OK {committer.commit(script, step).epoch}")
    progress(len(steps), len(steps))
    print(f"{plural(len(steps), 'command')} accepted; the last epoch is {committer.epoch}")


def say(line: str) -> None:
    """Prints a line over the one that shows progress."""
    if sys.stderr.isatty():
        print("\r\033[K", end="", file=sys.stderr, flush=True)
    print(line, flush=True)


def progress(done: int, all_: int) -> None:
    """Shows on a terminal how far a long script is."""
    if all_ >= LONG and sys.stderr.isatty():
        end = "\r\033[K" if done == all_ else ""
        print(f"\r\033[K{done} of {all_}{end}", end="", file=sys.stderr, flush=True)
