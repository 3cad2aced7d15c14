"""A runbook as a page of Markdown."""
from __future__ import annotations

from typing import List, Sequence

from tools.runbook.recipes import steps_of
from tools.runbook.steps import Step, Stream, Task
from tools.runbook.versions import Version
from tools.terms import listed, percent

LEGEND = (
    "No command below was run against a cluster of Cassandra by those who wrote this page: they are those of its "
    "documentation. What is marked † isn't in it. Sizes are estimates: a node's Load, by the share of its ranges that "
    "is streamed, as if all keyspaces were alike."
)
UNITS = ("B", "KiB", "MiB", "GiB", "TiB")


def page_of(title: str, waves: Sequence[Sequence[Task]], version: Version, script: str) -> List[str]:
    """Returns the lines of a runbook for waves of movements; `script` is the plan that `apply` takes."""
    lines = [f"# {title}", "", f"For Cassandra {version.name}. {LEGEND}", ""]
    lines += ["## Before each movement", "", *(f"- {it}" for it in version.settled), "", version.together, ""]
    lines += [
        "Record the steps by the plan's script, which asks before each of them:",
        "",
        *fenced("sh", script),
        "",
    ]
    for number, wave in enumerate(waves, 1):
        lines += [f"## Wave {number}", ""]
        for task in wave:
            lines += task_lines(task, version)
    return lines


def task_lines(task: Task, version: Version) -> List[str]:
    """Returns the lines of a movement."""
    state = f" (in flight: {task.phase})" if task.phase else ""
    lines = [f"### {task.said}{state}", "", *stream_lines(task.streams)]
    for number, step in enumerate(steps_of(task, version), 1):
        lines += step_lines(number, step)
    return lines


def stream_lines(streams: Sequence[Stream]) -> List[str]:
    """Returns the table of what is streamed."""
    if not streams:
        return ["Nothing is streamed.", ""]
    lines = ["| to | from | keyspaces | of the ring | about |", "|---|---|---|---:|---:|"]
    for it in streams:
        mark = "" if it.is_strict else " (not the strict source: not proved)"
        size = size_said(it.size) if it.size is not None else ""
        lines.append(f"| {it.to} | {it.source}{mark} | {listed(list(it.keyspaces))} | {percent(it.tokens)} | {size} |")
    return [*lines, ""]


def step_lines(number: int, step: Step) -> List[str]:
    """Returns the lines of a step."""
    lines = [f"**{number}. {step.title}**", ""]
    for block in step.do:
        lines += [f"On {block.place}:", "", *fenced(block.language, block.text), ""]
    for name, said in (("Look at", step.look), ("Note", step.notes)):
        lines += [f"- {name}: {it}" for it in said]
    if step.go_on:
        lines.append(f"- Go on when: {step.go_on}.")
    if step.undo:
        lines.append(f"- To take it back: {step.undo}")
    if step.stands_for:
        lines += ["- In the log:", "", *fenced("text", "\n".join(step.stands_for))]
    return [*lines, ""]


def fenced(language: str, text: str) -> List[str]:
    """Returns a fenced block."""
    return [f"```{language}", *text.split("\n"), "```"]


def size_said(size: int) -> str:
    """Returns a number of bytes for people, for example `1.5 GiB`."""
    number, unit = float(size), 0
    while number >= 1024 and unit + 1 < len(UNITS):
        number, unit = number / 1024, unit + 1
    return f"{number:.0f} {UNITS[unit]}" if unit == 0 or number >= 100 else f"{number:.1f} {UNITS[unit]}"
