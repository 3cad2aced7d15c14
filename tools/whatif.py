"""The verb `whatif`: wishes are tried on a copy of a log, and a plan in waves is shown."""
from __future__ import annotations

import argparse
import sys
from typing import Dict, Iterator, List, Sequence, Tuple

from tools.down import down_of
from tools.errors import Refused
from tools.margins import Level, Margin
from tools.names import Names, names_of
from tools.progress import Progress
from tools.runbook.page import page_of
from tools.runbook.tasks import planned
from tools.runbook.words import add_runbook, loads_of, version_of
from tools.script import head_of
from tools.seen import seen_of
from tools.show import plain, print_json, print_lines, say, table
from tools.slips import slips_of
from tools.terms import listed, percent, plural
from tools.text import name_of, read_lines, write_text
from tools.waves import Plan, Wave, plan
from tools.wishes import FORMS, Wish, command_of, dead_first, read_wishes, with_seen
from tools.words import add_json, add_log, add_output

Spread = Tuple[float, float]  # the least and the greatest share of nodes, as parts of their fair shares
NAME, HELP = "whatif", "plan movements on a copy of a log, in waves that can be in flight together"
EXAMPLE = f"""a file of wishes has one a line (# begins a remark):
{FORMS}

Tokens that aren't given are chosen so that the node gets its fair share of the keyspace with most replicas in its
datacenter, and relieves the nodes that have most. What the program places then is shown.

example:
  bin/cluster whatif cluster.log wishes.txt --script plan.script
  bin/cluster apply cluster.log plan.script --dry-run"""


def words(parser: argparse.ArgumentParser) -> None:
    """Declares the words of the verb."""
    add_log(parser)
    parser.add_argument("moves", metavar="MOVES", help="the file of wishes; - is standard input")
    parser.add_argument(
        "--seed", metavar="N", type=int, default=1, help="the seed of tokens that are drawn; 1 is the default"
    )
    add_output(parser, parser, "--script", "write the plan as a script for apply")
    parser.add_argument("--strict", action="store_true", help="refuse wishes in which something may not be meant")
    add_runbook(parser)
    add_json(parser)


def run(options: argparse.Namespace) -> int:
    """Plans, and returns 1 where a wish can't come true."""
    wishes, said, up = read_wishes(read_lines(options.moves), name_of(options.moves))
    names, seen = names_of(options.log), seen_of(options.log)
    wishes, down = with_seen(wishes, seen, name_of(options.moves)), down_of(options.log, said, up, names)
    ordered = dead_first(wishes, down, lambda it: names.here("node", it))
    with Progress() as progress:
        made = plan(options.log, ordered, down, names, options.seed, progress.say)
    slips = [it.said(name_of(options.moves)) for it in slips_of(wishes, made, down, names, seen)]
    if slips and options.strict:
        raise Refused("\n".join([*slips, "refused by --strict: nothing is written"]))
    for it in slips:
        print(f"cluster: {plain(it)}", file=sys.stderr)
    if options.script:
        write_text(options.script, script_of(made, names))
    if options.runbook:
        waves = planned(options.log, made, names, down, loads_of(options))
        print_lines(page_of(f"A plan for {options.log}", waves, version_of(options), script_said(options)))
    elif options.json:
        shown: Dict[str, object] = {**as_json(made, names, down), "slips": slips}
        print_json(shown)
    else:
        show(made, names)
    if made.impossible:
        raise Refused(
            "\n".join(f"{name} has no place in any wave: tcm answers {why}" for name, why in made.impossible.items())
        )
    return 0


def script_said(options: argparse.Namespace) -> str:
    """Returns how the steps of the plan are recorded."""
    return f"bin/cluster apply {options.log} {options.script or 'PLAN.script'}"


# ---- The plan in words


def show(made: Plan, names: Names) -> None:
    """Prints the plan; margins are shown where they change."""
    shown: Dict[Level, Margin] = {}
    if made.finished:
        half_way = listed([f"{kind} of {names.there('node', made.node_names[node])}" for kind, node in made.finished])
        say(f"First: finish what is half way: {half_way}\n")
    for number, wave in enumerate(made.waves, 1):
        count = len(wave.wishes) + len(wave.already)
        say(f"Wave {number}: {plural(count, 'movement')}" + (" in flight together" if count > 1 else ""))
        show_movements(wave, made, names)
        show_moved(wave, made, names)
        show_margins(wave.margins, shown, made, names, wave.down)
        shown = wave.margins
        say()
    if made.waves:
        say("After the last wave")
        show_margins(made.after, shown, made, names, made.down)
        show_spreads(made, names)


def show_movements(wave: Wave, made: Plan, names: Names) -> None:
    """Prints the movements of a wave, and the wishes that wait."""
    for kind, node, phase in wave.already:
        say(f"  {kind} {names.there('node', made.node_names[node])}, in flight already ({phase})")
    print_lines([it.said for it in wave.wishes], "  ")
    for name, why in wave.waiting.items():
        say(f"  ({name} {waits_for(name, why, wave, made, names)})")


def waits_for(name: str, why: str, wave: Wave, made: Plan, names: Names) -> str:
    """Returns why a wish waits: for which movements, and which keyspaces couple it with them; or the refusal."""
    found = wave.coupled.get(name)
    if not found:
        return f"waits: tcm answers {why}"
    by_node: Dict[int, List[str]] = {}
    for it in found:
        by_node.setdefault(it.node, []).extend(it.keyspaces)
    return "; ".join(
        f"waits for {names.there('node', made.node_names[node])}, coupled by {keyspaces_said(keyspaces, names)}"
        for node, keyspaces in by_node.items()
    )


def keyspaces_said(keyspaces: Sequence[str], names: Names) -> str:
    """Returns keyspaces by their names of Cassandra."""
    return listed([names.there("keyspace", it) for it in keyspaces])


def show_moved(wave: Wave, made: Plan, names: Names) -> None:
    """Prints how much of the ring is streamed to which node, by keyspace."""
    nodes = sorted({node for moved in wave.moved.values() for node in moved})
    if not nodes:
        return
    columns = [keyspaces_said(made.same[it], names) for it in made.same]
    rows = [["to", *columns]]
    rows += [
        [names.there("node", made.node_names[n]), *(percent(wave.moved[k].get(n, 0)) for k in made.same)] for n in nodes
    ]
    say("  Streamed, as parts of the ring")
    print_lines(table(rows, right=range(1, len(rows[0]))), "    ")


def show_margins(
    margins: Dict[Level, Margin], shown: Dict[Level, Margin], made: Plan, names: Names, down: Sequence[str]
) -> None:
    """Prints how many replicas more quorums can lose, where they have the fewest: those that weren't shown so."""
    new = {it: margin for it, margin in margins.items() if it not in shown or numbers(shown[it]) != numbers(margin)}
    if not new:
        return
    verb = "is" if len(down) == 1 else "are"
    changed = " now, where it changed" if shown else ""
    say(f"  Replicas that a quorum can still lose{f' while {listed(list(down))} {verb} down' if down else ''}{changed}")
    rows, notes = [["keyspace", "level", "reads", "writes"]], []
    for (keyspace, level), it in new.items():
        said = [keyspaces_said(made.same[keyspace], names), level_said(level, names)]
        rows.append([*said, *(str(n) if n >= 0 else "none" for n in numbers(it))])
        if min(numbers(it)) < 0:
            notes.append(f"{' '.join(said)}: no quorum, for example at {it.reads_at if it.reads < 0 else it.writes_at}")
    print_lines([*table(rows, right=(2, 3)), *notes], "    ")


def numbers(margin: Margin) -> Tuple[int, int]:
    """Returns the numbers of a margin: those of reads and writes."""
    return margin.reads, margin.writes


def show_spreads(made: Plan, names: Names) -> None:
    """Prints how evenly keyspaces are spread before and after the plan."""
    say("  Shares of nodes, as parts of their fair shares")
    rows = [["keyspace", "datacenter", "before", "after"]]
    for keyspace, dc, *spreads in spreads_of(made):
        there = names.there("datacenter", dc) if dc else "all"
        rows.append([keyspaces_said(made.same[keyspace], names), there, *(f"{a:.2f} to {b:.2f}" for a, b in spreads)])
    print_lines(table(rows), "    ")


def spreads_of(made: Plan) -> Iterator[Tuple[str, str, Spread, Spread]]:
    """Gives the least and the greatest shares before and after the plan, by keyspace and datacenter."""
    for (keyspace, dc), parts in made.parts.items():
        if (keyspace, dc) in made.before:
            before = made.before[keyspace, dc].values()
            yield keyspace, dc, (min(before), max(before)), (min(parts.values()), max(parts.values()))


def level_said(level: str, names: Names) -> str:
    """Returns a consistency level with the name of its datacenter."""
    said, _, dc = level.partition(" ")
    return f"{said} {names.there('datacenter', dc)}" if dc else said


# ---- The plan as a script, and as JSON


def script_of(made: Plan, names: Names) -> str:
    """Returns the plan as a script for `apply`, which does what was tried."""
    cluster, epoch = made.begin
    lines = [head_of(cluster, epoch)] if cluster else []
    lines += [f"finish-{kind} {names.word('node', made.node_names[node])}" for kind, node in made.finished]
    if made.registered:
        lines += ["# The new nodes", *(f"register {' '.join(it)}" for it in made.registered)]
    for number, wave in enumerate(made.waves, 1):
        lines += [f"# Wave {number}", *(command_of(it) for it in wave.wishes), *steps_of(wave, made, names)]
    return "".join(f"{it}\n" for it in lines)


def steps_of(wave: Wave, made: Plan, names: Names) -> List[str]:
    """Returns the steps of a wave after its prepares."""
    moving = [(kind, names.word("node", made.node_names[node]), phase) for kind, node, phase in wave.already]
    moving += [(it.kind, it.name, "PREPARED") for it in wave.wishes]
    return [
        *(f"start-{kind} {name}" for kind, name, phase in moving if phase == "PREPARED"),
        "# Check that all coordinators have seen the epoch, and stream what bin/cluster moves shows; then:",
        *(f"mid-{kind} {name}" for kind, name, _ in moving),
        "# Check that all coordinators have seen the epoch; then:",
        *(f"finish-{kind} {name}" for kind, name, _ in moving),
    ]


def as_json(made: Plan, names: Names, down: List[str]) -> Dict[str, object]:
    """Returns the plan as JSON has it."""
    return {
        "down": down,
        "finish_first": [names.there("node", made.node_names[node]) for _, node in made.finished],
        "register": [dict(zip(("name", "datacenter", "rack"), it)) for it in made.registered],
        "waves": [wave_json(it, made, names) for it in made.waves],
        "after": margins_json(made.after, made, names),
        "spreads": spreads_json(made, names),
        "impossible": made.impossible,
    }


def wave_json(wave: Wave, made: Plan, names: Names) -> Dict[str, object]:
    """Returns a wave as JSON has it."""
    return {
        "in_flight_already": [
            {"node": names.there("node", made.node_names[n]), "kind": kind, "phase": phase}
            for kind, n, phase in wave.already
        ],
        "movements": [wish_json(it) for it in wave.wishes],
        "waiting": [
            {
                "node": name,
                "answer": why,
                "coupled": [
                    {
                        "keyspaces": [names.there("keyspace", k) for k in it.keyspaces],
                        "node": names.there("node", made.node_names[it.node]),
                    }
                    for it in wave.coupled.get(name, [])
                ],
            }
            for name, why in wave.waiting.items()
        ],
        "streamed": {
            names.there("keyspace", k): {
                names.there("node", made.node_names[n]): round(tokens / 2**64, 6)
                for n, tokens in wave.moved[first].items()
            }
            for first, same in made.same.items()
            for k in same
        },
        "down": wave.down,
        "can_lose": margins_json(wave.margins, made, names),
    }


def wish_json(wish: Wish) -> Dict[str, object]:
    """Returns a movement as JSON has it."""
    return {
        "node": wish.name, "kind": wish.kind, "replaces": wish.gone or None, "tokens": [str(it) for it in wish.tokens]
    }


def spreads_json(made: Plan, names: Names) -> List[Dict[str, object]]:
    """Returns how evenly keyspaces are spread, as JSON has it."""
    return [
        {
            "keyspaces": [names.there("keyspace", it) for it in made.same[keyspace]],
            "datacenter": names.there("datacenter", dc) if dc else None,
            "before": [round(it, 4) for it in before],
            "after": [round(it, 4) for it in after],
        }
        for keyspace, dc, before, after in spreads_of(made)
    ]


def margins_json(margins: Dict[Level, Margin], made: Plan, names: Names) -> List[Dict[str, object]]:
    """Returns margins as JSON has them; a negative number is that of the replicas that are missing."""
    return [
        {
            "keyspaces": [names.there("keyspace", k) for k in made.same[keyspace]],
            "level": level_said(level, names),
            "reads": it.reads,
            "writes": it.writes,
        }
        for (keyspace, level), it in margins.items()
    ]
