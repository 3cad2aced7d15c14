"""The questions before steps that change reads and writes: the program sees no node, so the operator answers."""
from __future__ import annotations

import sys
from typing import List, Sequence

from tools.errors import NotConfirmed
from tools.script import Script, Step

KINDS = ("start", "mid", "finish", "epoch")


def kind_of(step: Step) -> str:
    """Returns the kind of the question before a command; empty if none is due."""
    return "" if step.stage == "start" and not step.begins_wave else step.stage


def question(script: Script, step: Step, epoch: int) -> str:
    """Returns the question before a step; `epoch` is the last one."""
    node = step.words[1]
    seen = f"have all coordinators seen epoch {epoch}"
    if step.stage == "start":
        nodes = ", ".join(starting(script.steps, step))
        done = [it.words[1] for it in script.steps if it.line < step.line and it.stage == "finish"]
        clean = f" Are the nodes cleaned up that lost ranges to {', '.join(done)}?" if done else ""
        return f"a new wave begins. Is the machine of each of these up: {nodes}?{clean} And {seen}?"
    if step.stage == "mid":
        return f"from here on new replicas are read. Is all data of {node} streamed that `moves` shows, and {seen}?"
    return f"from here on nodes that {node} takes over from are no longer written. {seen[0].upper()}{seen[1:]}?"


def starting(steps: Sequence[Step], first: Step) -> List[str]:
    """Returns the nodes that start together with the first one of a wave."""
    found: List[str] = []
    for it in steps[steps.index(first) :]:
        if it.stage != "start" or (found and it.begins_wave):
            break
        found.append(it.words[1])
    return found


def confirm(where: str, said: str, kind: str, yes: Sequence[str]) -> None:
    """Asks a question on the terminal, unless its kind was answered by `--yes`; ends if the answer isn't yes."""
    if kind in yes:
        return
    print(f"{where}: {said}", file=sys.stderr)
    if not sys.stdin.isatty():
        why = f"not confirmed, so nothing from here on is done; answer on a terminal, or by --yes {kind}"
        raise NotConfirmed(f"{where}: {why}")
    print("[y/N] ", end="", file=sys.stderr, flush=True)
    if sys.stdin.readline().strip().lower() not in ("y", "yes"):
        raise NotConfirmed(f"{where}: not confirmed, so nothing from here on is done; apply it again to go on here")
