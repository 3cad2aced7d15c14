"""The verb `moves`: for each movement in flight what is streamed from where to where, and what to run at each step."""
from __future__ import annotations

import argparse
from typing import Dict, List, Sequence

from tools.answers import Movement
from tools.down import add_down, down_of
from tools.errors import Refused
from tools.log import State, copy_of, state
from tools.names import Names, names_of
from tools.near import meant
from tools.placements import Stretch
from tools.runbook.page import page_of
from tools.runbook.tasks import in_flight
from tools.runbook.words import add_runbook, loads_of, version_of
from tools.show import print_json, print_lines, say, table
from tools.status import partner
from tools.streams import ANY, NOT_PROVED, Streams, Taking, streams_of
from tools.terms import listed, percent, plural
from tools.words import add_json, add_keyspaces, add_log, chosen_keyspaces

NAME, HELP = "moves", "show what the movements in flight stream, and what to run at each step"
EXAMPLE = """example:
  bin/cluster moves cluster.log --down 10.0.1.12
  bin/cluster moves cluster.log --node 10.0.1.16 --keyspace accounts"""


def words(parser: argparse.ArgumentParser) -> None:
    """Declares the words of the verb."""
    add_log(parser)
    parser.add_argument("--node", metavar="NAME", help="show the movement of this node alone")
    add_down(parser)
    add_keyspaces(parser)
    add_runbook(parser)
    add_json(parser)


def run(options: argparse.Namespace) -> int:
    """Shows the movements in flight."""
    names = names_of(options.log)
    dead = down_of(options.log, options.down, options.up, names)
    if options.runbook:
        tasks = in_flight(options.log, names, dead, loads_of(options))
        script = f"bin/cluster apply {options.log} STEPS.script   # the steps that the log lacks, as they stand below"
        print_lines(page_of(f"What is in flight in {options.log}", [tasks], version_of(options), script))
        return 0
    with copy_of(options.log) as copy:
        now = state(copy, name=options.log)
        down = {node_id(it, now, names) for it in dead}
        keyspaces = chosen_keyspaces(options.keyspace, now, names)
        wanted = [it for it in now.movements if not options.node or it.node == node_id(options.node, now, names)]
        shown = [(it, streams_of(copy, it.node, now, keyspaces, down)) for it in wanted]
    if options.json:
        print_json([as_json(it, streams, now, names) for it, streams in shown])
    elif not shown:
        say("No movement is in flight" + (f" of {options.node}." if options.node else "."))
    else:
        for i, (it, streams) in enumerate(shown):
            show(it, streams, now, names, is_first=i == 0)
    return 0


def node_id(said: str, now: State, names: Names) -> int:
    """Returns the id of the node with a name."""
    node = now.by_name.get(names.here("node", said))
    if not node:
        others = meant(said, (names.there("node", it) for it in now.by_name))
        raise Refused(f"no node {said} at epoch {now.epoch}{others}")
    return node.id


def named(ids: Sequence[int], now: State, names: Names) -> str:
    """Returns nodes by their names of Cassandra."""
    return listed([names.there("node", now.by_id[it].name) for it in ids])


def show(it: Movement, streams: List[Streams], now: State, names: Names, is_first: bool) -> None:
    """Prints a movement."""
    say(
        (
            "" if is_first else "\n"
        ) + f"{named([it.node], now, names)}: {it.kind}{partner(it, now, names)}, {it.phase} at epoch {now.epoch}"
    )
    print_lines([f"{i}. {said}" for i, said in enumerate(steps_left(it, streams, now, names), 1)], "  ")
    for group in streams:
        say(
            f"\n  {listed([names.there('keyspace', k) for k in group.keyspaces])}: "
            f"{plural(len(group.stretches), 'range')}, {percent(group.width)} of the ring streamed"
        )
        rows = [["range", "share", "to", "from", "loses it"]]
        rows += [range_row(stretch, taking, now, names) for stretch, taking in group.stretches]
        print_lines(table(rows, right=[1]), "    ")
    down = {taking.losing for group in streams for _, taking in group.stretches if taking.kind == NOT_PROVED}
    if down:
        say(
            f"\n  not proved: other nodes may lack writes that {named(sorted(filter(None, down)), now, names)} "
            "acknowledged. Repair the ranges before quorums are trusted."
        )


def range_row(stretch: Stretch, taking: Taking, now: State, names: Names) -> List[str]:
    """Returns a range as a row of a table."""
    losing = [] if taking.losing is None else [taking.losing]
    ends = [stretch.name, percent(stretch.width), named([taking.to], now, names)]
    return [*ends, source_said(taking, now, names), named(losing, now, names)]


def source_said(taking: Taking, now: State, names: Names) -> str:
    """Returns the sources of a range, or that there are none."""
    if not taking.sources:
        return "NO SOURCE IS UP"
    said = named(taking.sources, now, names)
    if taking.kind == NOT_PROVED:
        return f"{said} (not proved)"
    return f"any of {said}" if taking.kind == ANY and len(taking.sources) > 1 else said


def steps_left(it: Movement, streams: List[Streams], now: State, names: Names) -> List[str]:
    """Returns what is still to be done for a movement."""
    node = named([it.node], now, names)
    losing = {n for group in streams for n in group.losing}
    gone = {n for _, n in it.outgoing} if it.kind in ("leave", "replace") else set()
    clean = sorted(losing - gone)
    seen = f"check that all coordinators have seen epoch {now.epoch}, then commit"
    steps = {
        "PREPARED": [
            f"{seen} `start-{it.kind} {node}`",
            "check that all coordinators have seen that epoch",
            "stream the ranges below",
        ],
        "STARTED": [f"check that all coordinators have seen epoch {now.epoch}", "stream the ranges below"],
        "MID": [f"{seen} `finish-{it.kind} {node}`"],
    }[it.phase]
    if it.phase != "MID":
        steps += [
            f"commit `mid-{it.kind} {node}`",
            f"check that all coordinators have seen it, then commit `finish-{it.kind} {node}`",
        ]
    if clean:
        steps.append(f"run `nodetool cleanup` on {named(clean, now, names)}")
    return steps


def as_json(it: Movement, streams: List[Streams], now: State, names: Names) -> Dict[str, object]:
    """Returns a movement as JSON has it."""

    def name(n: int) -> str:
        return names.there("node", now.by_id[n].name)

    return {
        "node": name(it.node),
        "kind": it.kind,
        "phase": it.phase,
        "epoch": now.epoch,
        "steps": steps_left(it, streams, now, names),
        "streams": [
            {
                "keyspaces": [names.there("keyspace", k) for k in group.keyspaces],
                "share": round(group.width / 2**64, 6),
                "ranges": [range_json(stretch, taking, now, names) for stretch, taking in group.stretches],
            }
            for group in streams
        ],
    }


def range_json(stretch: Stretch, taking: Taking, now: State, names: Names) -> Dict[str, object]:
    """Returns a range as JSON has it."""
    losing = [] if taking.losing is None else [taking.losing]
    nodes = {"to": [taking.to], "from": taking.sources, "losing": losing}
    return {
        "left": None if stretch.left is None else str(stretch.left),
        "right": None if stretch.right is None else str(stretch.right),
        **{key: [names.there("node", now.by_id[n].name) for n in ids] for key, ids in nodes.items()},
        "source": taking.kind,
    }
