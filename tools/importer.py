"""The verb `import`: a cluster as `nodetool ring` and cqlsh show it becomes a script, or a log."""
from __future__ import annotations

import argparse
import os
import sys
import tempfile
from dataclasses import dataclass, field
from typing import Any, Dict, List, Optional, Set

from tools import names as naming
from tools import seen as seeing
from tools.bundle import SCHEMA, Bundle, cluster_name, notes_of, read_bundle, seen_of_bundle
from tools.compare import differences, show
from tools.errors import Refused, WrongWords
from tools.log import is_absent_or_empty, state
from tools.names import Names
from tools.near import meant
from tools.nodetool import RingNode, read_describering, read_ring
from tools.on_disk import write_log
from tools.program import Session
from tools.schema import Keyspace, read_schema
from tools.seen import Seen
from tools.show import plain, say
from tools.terms import (
    MOST_DATACENTERS,
    MOST_KEYSPACES,
    MOST_NODES,
    MOST_RF,
    MOST_TOKENS,
    MOST_TOKENS_OF_NODE,
    is_token,
    listed,
    plural,
)
from tools.text import fault, name_of, read_bytes, read_lines, read_text, write_text
from tools.words import add_cluster, add_output

NAME, HELP = "import", "make a script or a log of what nodetool ring and cqlsh print"
EXAMPLE = """example:
  bin/collect shop | sh     # on a machine with nodetool and cqlsh
  bin/cluster import shop --log shop.log"""

LEFT_OUT = ("LocalStrategy", "MetaStrategy")


@dataclass
class Imported:
    """The commands that make a cluster, the names they use, and what the reader should know."""

    commands: List[str]
    names: Names
    notes: List[str] = field(default_factory=list)
    movements: Dict[int, RingNode] = field(default_factory=dict)  # by the place of the command that prepares each

    @property
    def script(self) -> str:
        """The script, with a fresh id for each commit."""
        return "".join(f"commit {i} {it}\n" for i, it in enumerate(self.commands, 1))


@dataclass(frozen=True)
class Source:
    """What messages call the files, and the datacenters of the ring."""

    ring: str
    schema: str
    datacenters: List[str]


def datacenters_of(nodes: List[RingNode]) -> List[str]:
    """Returns the datacenters of nodes."""
    return sorted({it.dc for it in nodes})


def words(parser: argparse.ArgumentParser) -> None:
    """Declares the words of the verb."""
    parser.add_argument(
        "ring",
        metavar="FOLDER|RING",
        help="a folder made by the commands that bin/collect prints, or what nodetool ring printed; - is standard input",
    )
    parser.add_argument(
        "schema", metavar="SCHEMA", nargs="?", help="with RING: what DESCRIBE FULL SCHEMA of cqlsh printed"
    )
    to = parser.add_mutually_exclusive_group(required=True)
    to.add_argument("--log", metavar="LOG", help="the log to make, with its names in LOG.names")
    script = "the script to make, with its names in FILE.names: copy it to LOG.names of the log that you make"
    add_output(to, parser, "--script", script)
    add_cluster(parser)
    more: Dict[str, Any] = {"action": "append", "default": []}
    parser.add_argument(
        "--leave-out", metavar="KEYSPACE", help="a keyspace to leave out, by its name; may be repeated", **more
    )
    parser.add_argument(
        "--moving",
        metavar=("NODE", "TOKEN"),
        nargs=2,
        help="the token to which a node moves, as nodetool ring doesn't say it; may be repeated",
        **more,
    )
    parser.add_argument(
        "--settled",
        metavar="NODE",
        help="a node that is to have no movement in the log: a joining one is only registered; may be repeated",
        **more,
    )
    parser.add_argument(
        "--skip-unknown", action="store_true", help="pass over lines of SCHEMA that begin no statement, and name them"
    )


def run(options: argparse.Namespace) -> int:
    """Imports a cluster, and returns 1 where its placements aren't those of the bundle."""
    bundle = bundle_of(options)
    cluster = options.cluster or (cluster_name(bundle) if options.log else "")
    ring, schema = bundle.paths()
    nodes = read_ring(read_lines(ring), name_of(ring))
    skipped: Optional[List[str]] = [] if options.skip_unknown else None
    keyspaces = read_schema(read_text(schema), name_of(schema), skipped)
    seen = seen_of_bundle(bundle, nodes, keyspaces)
    source = Source(name_of(ring), name_of(schema), datacenters_of(nodes))
    imported = import_cluster(nodes, keyspaces, set(options.leave_out), source)
    imported.notes += [f"{source.schema}: {it}" for it in skipped or []]
    imported.notes += notes_of(bundle, nodes, keyspaces)
    asked = asked_of(options, nodes, source.ring)
    add_movements(imported, nodes, asked, source.ring)
    seen.tokens = {it.address: tuple(it.tokens) for it in nodes if it.address in asked.settled}
    if options.log:
        make_log(options.log, cluster, imported)
    else:
        write_text(options.script, imported.script)
        imported.names.save(naming.path_of(options.script))
    to = options.log or options.script
    seen.save(seeing.path_of(to))
    tell(to, imported, nodes, seen)
    return 1 if options.log and not agrees(options.log, bundle, imported.names) else 0


def bundle_of(options: argparse.Namespace) -> Bundle:
    """Returns the bundle that the words name: a folder, or two files."""
    if os.path.isdir(options.ring):
        if options.schema:
            raise Refused(f"{options.ring} is a folder, which has {SCHEMA} itself, so SCHEMA has no place beside it")
        return read_bundle(options.ring)
    if not options.schema:
        raise WrongWords("RING needs SCHEMA, unless it is a folder with both")
    if options.ring == options.schema == "-":
        raise WrongWords("only one of RING and SCHEMA can be standard input")
    if options.log and not options.cluster:
        raise WrongWords("a log needs the name of its cluster: --cluster NAME")
    return Bundle(files=(options.ring, options.schema))


def tell(to: str, imported: Imported, nodes: List[RingNode], seen: Seen) -> None:
    """Says what was made."""
    for note in [*imported.notes, *notes_of_seen(seen, seeing.path_of(to))]:
        print(f"cluster: {plain(note)}", file=sys.stderr)
    joined = [it for it in nodes if it.state != "Joining"]
    made = sum(it.startswith("keyspace ") for it in imported.commands)
    joining = f" and {plural(len(nodes) - len(joined), 'joining one')}" if len(joined) < len(nodes) else ""
    say(
        f"{to}: {plural(len(joined), 'node')} with {plural(sum(len(it.tokens) for it in joined), 'token')}{joining}, "
        f"{plural(made, 'keyspace')}, {plural(len(imported.commands), 'command')}"
    )
    differing = imported.names.differing()
    if differing:
        say(f"{naming.path_of(to)}: {plural(len(differing), 'name')} that differ from those of Cassandra")


def notes_of_seen(seen: Seen, path: str) -> List[str]:
    """Returns what the reader should know of what is kept beside the log."""
    notes = []
    if seen.down:
        verb = "is" if len(seen.down) == 1 else "are"
        notes.append(f"{listed(seen.down)} {verb} Down: {path} keeps it, so whatif and moves count with it")
    if seen.missing:
        notes.append(
            f"the schema has no {listed(seen.missing)}, by which movements may have to wait: DESCRIBE FULL SCHEMA prints "
            "all keyspaces"
        )
    return notes


def agrees(log: str, bundle: Bundle, names: Names) -> bool:
    """Says how the placements of a log differ from each describering of a bundle, and returns whether none does."""
    is_same = True
    now = state(log) if bundle.describering else None
    for keyspace, path in bundle.describering.items():
        here = names.here("keyspace", keyspace)
        if now is None or here not in now.replications:
            print(f"cluster: {plain(path)}: the log has no keyspace {plain(keyspace)}, so it isn't compared", file=sys.stderr)
            continue
        ranges = read_describering(read_lines(path), path)
        found = differences(ranges, here, now, names)
        show(path, keyspace, now.epoch, ranges, found)
        is_same = is_same and not found
    return is_same


# ---- A cluster as commands


def import_cluster(
    nodes: List[RingNode], keyspaces: List[Keyspace], leave_out: Set[str], source: Source
) -> Imported:
    """Returns the commands that make a cluster of these nodes and keyspaces, without movements in flight."""
    check_limits(nodes, source.ring)
    imported = Imported([], Names())
    add_nodes(imported, nodes)
    unknown = leave_out - {it.name for it in keyspaces}
    if unknown:
        raise Refused(f"{source.schema}: no keyspace {listed(sorted(unknown))} is there to be left out")
    unfit_ones = []
    for keyspace in keyspaces:
        try:
            add_keyspace(imported, keyspace, leave_out, source)
        except Refused as why:
            unfit_ones.append(str(why))
    if unfit_ones:
        raise Refused("\n".join(unfit_ones))
    if sum(it.startswith("keyspace ") for it in imported.commands) > MOST_KEYSPACES:
        raise Refused(f"{source.schema}: at most {MOST_KEYSPACES} keyspaces have room; leave some out by --leave-out")
    return imported


def check_limits(nodes: List[RingNode], ring: str) -> None:
    """Checks that a log has room for nodes and their tokens."""
    if len(nodes) > MOST_NODES:
        raise Refused(f"{ring}: {len(nodes):,} nodes, and at most {MOST_NODES:,} have room")
    tokens = sum(len(it.tokens) for it in nodes)
    if tokens > MOST_TOKENS:
        most = max(len(it.tokens) for it in nodes)
        raise Refused(
            f"{ring}: {plural(len(nodes), 'node')} have {tokens:,} tokens, and at most {MOST_TOKENS:,} have room: "
            f"{MOST_TOKENS // most:,} nodes of {most} tokens"
        )
    for node in nodes:
        if len(node.tokens) > MOST_TOKENS_OF_NODE:
            raise fault(
                ring,
                node.line,
                f"{node.address} has {len(node.tokens)} tokens, and at most {MOST_TOKENS_OF_NODE} have room",
            )


def add_nodes(imported: Imported, nodes: List[RingNode]) -> None:
    """Adds the commands that register nodes and give them their tokens."""
    take = imported.names.take
    for node in nodes:
        imported.commands.append(
            f"register {take('node', node.address)} {take('datacenter', node.dc)} {take('rack', node.rack)}"
        )
    for i, node in enumerate(nodes, 1):
        if node.state != "Joining":
            imported.commands.append(f"unsafe-join {i} {tokens_of(node)}")


def tokens_of(node: RingNode) -> str:
    """Returns the tokens of a node as scripts write them."""
    return " ".join(str(it) for it in sorted(node.tokens))


def add_keyspace(imported: Imported, keyspace: Keyspace, leave_out: Set[str], source: Source) -> None:
    """Adds the command that makes a keyspace, unless it is to be left out."""
    if keyspace.strategy in LEFT_OUT:
        imported.notes.append(
            f"the keyspace {keyspace.name} is left out: each node has all of it ({keyspace.strategy})"
        )
    elif keyspace.name in leave_out:
        imported.notes.append(f"the keyspace {keyspace.name} is left out, as --leave-out says")
    else:
        replication = replication_of(imported, keyspace, source)
        imported.notes += [f"{source.schema}:{keyspace.line}: {keyspace.name}: {it}" for it in keyspace.notes]
        imported.commands.append(f"keyspace {imported.names.take('keyspace', keyspace.name)} {replication}")


def replication_of(imported: Imported, keyspace: Keyspace, source: Source) -> str:
    """Returns the replication of a keyspace as scripts write it."""
    options, schema = dict(keyspace.options), source.schema
    if keyspace.strategy == "SimpleStrategy":
        factor = options.pop("replication_factor", None)
        if factor is None or options:
            raise unfit(
                keyspace, schema, f"SimpleStrategy has replication_factor alone, not {listed(sorted(keyspace.options))}"
            )
        return f"simple {factor_of(keyspace, factor, schema)}"
    if keyspace.strategy != "NetworkTopologyStrategy":
        raise unfit(keyspace, schema, f"{keyspace.strategy} is neither SimpleStrategy nor NetworkTopologyStrategy")
    rest = options.pop("replication_factor", None)
    if rest is not None:
        options = {**{it: rest for it in source.datacenters}, **options}
    if "0" in options.values():
        none = listed([dc for dc, factor in options.items() if factor == "0"])
        imported.notes.append(f"{schema}:{keyspace.line}: {keyspace.name} has no replica in {none}")
    factors = {dc: factor_of(keyspace, factor, schema) for dc, factor in options.items() if factor != "0"}
    check_datacenters(imported, keyspace, list(factors), source)
    return "topology " + " ".join(f"{imported.names.take('datacenter', dc)}:{it}" for dc, it in factors.items())


def check_datacenters(imported: Imported, keyspace: Keyspace, named: List[str], source: Source) -> None:
    """Checks the datacenters that a keyspace names against those of the ring."""
    datacenters, schema = source.datacenters, source.schema
    strange = [it for it in named if it not in datacenters]
    if not named or len(named) > MOST_DATACENTERS:
        raise unfit(
            keyspace,
            schema,
            f"it has replicas in {plural(len(named), 'datacenter')}, and 1 to {MOST_DATACENTERS} can be named",
        )
    if len(strange) == len(named):
        raise unfit(
            keyspace,
            schema,
            f"the ring has no datacenter {listed(strange)}, only {listed(datacenters)}"
            f"{meant(strange[0], datacenters) or ': two clusters?'}",
        )
    if strange:
        imported.notes.append(
            f"the keyspace {keyspace.name} names the datacenter {listed(strange)}, which has no node in the ring"
            + meant(strange[0], datacenters)
        )


def factor_of(keyspace: Keyspace, factor: str, schema: str) -> int:
    """Returns a replication factor."""
    if "/" in factor:
        raise unfit(keyspace, schema, f"the factor {factor[:40]} asks for transient replicas, which have no place here")
    if not (factor.isascii() and factor.isdigit() and len(factor) < 5 and 1 <= int(factor) <= MOST_RF):
        raise unfit(keyspace, schema, f"the factor {factor[:40]} isn't 1 to {MOST_RF}")
    return int(factor)


def unfit(keyspace: Keyspace, schema: str, why: str) -> Refused:
    """Returns why a keyspace doesn't fit, and how to go on without it."""
    return fault(
        schema, keyspace.line, f"the keyspace {keyspace.name}: {why}. To go on without it: --leave-out {keyspace.name}"
    )


# ---- Movements in flight


@dataclass
class Asked:
    """What the reader says of nodes: to which token one moves, and which are to have no movement."""

    moving: Dict[str, int]
    settled: Set[str]


def asked_of(options: argparse.Namespace, nodes: List[RingNode], ring: str) -> Asked:
    """Returns what the words say of nodes, each of which has to be one that is in movement."""
    states = {it.address: it.state for it in nodes}
    asked = Asked({}, {naming.canonical(it) for it in options.settled})
    for name, token in options.moving:
        if not is_token(token):
            raise WrongWords(f"--moving {name} needs a token, -2^63 to 2^63 - 1, not {token:.40}")
        asked.moving[naming.canonical(name)] = int(token)
    wrong = [it for it in asked.settled if states.get(it) not in ("Joining", "Leaving", "Moving")]
    wrong += [it for it in asked.moving if states.get(it) != "Moving" or it in asked.settled]
    if wrong:
        raise Refused(f"{ring}: {listed(sorted(wrong))} isn't in such a movement")
    return asked


def add_movements(imported: Imported, nodes: List[RingNode], asked: Asked, ring: str) -> None:
    """Adds the commands that bring the movements of nodes in flight, up to `STARTED`."""
    for i, node in enumerate(nodes, 1):
        if node.state not in ("Joining", "Leaving", "Moving"):
            continue
        if node.address in asked.settled:
            imported.notes.append(f"{node.address} is {node.state}, and no movement of it is in flight in the log")
            continue
        if node.state == "Moving" and node.address not in asked.moving:
            raise fault(
                ring,
                node.line,
                f"{node.address} is Moving, and nodetool ring doesn't say to which token: --moving {node.address} TOKEN; "
                f"or without its movement: --settled {node.address}",
            )
        prepares = {
            "Joining": f"join {i} {tokens_of(node)}",
            "Leaving": f"leave {i}",
            "Moving": f"move {i} {asked.moving.get(node.address)}",
        }
        kind = prepares[node.state].split(" ")[0]
        imported.movements[len(imported.commands)] = node
        imported.commands += [f"prepare-{prepares[node.state]}", f"start-{kind} {i}"]
        imported.notes.append(f"{node.address} is {node.state}: its {kind} is in flight in the log, at STARTED")


# ---- A log of the commands


def make_log(log: str, cluster: str, imported: Imported) -> None:
    """Makes a log file of the commands, whole or not at all."""
    if not is_absent_or_empty(log):
        raise Refused(f"{log} is there already, and an import begins a log: choose another name, or move it away")
    folder = os.path.dirname(os.path.abspath(log))
    try:
        with tempfile.TemporaryDirectory(prefix=".import-", dir=folder) as inside:
            path = os.path.join(inside, "new.log")
            commit_all([path, cluster], imported)
            imported.names.save(naming.path_of(log), path)
            if not write_log(log, read_bytes(path)):
                os.replace(path, log)
    except OSError as why:
        raise Refused(f"{log}: {why.strerror}") from why


def commit_all(words: List[str], imported: Imported) -> None:
    """Commits the commands to a new log, each of which has to be accepted."""
    lines = imported.script.splitlines()
    with Session(words) as session:
        for i, (line, answer) in enumerate(zip(lines, session.ask_all(lines))):
            if not answer[0].startswith("OK "):
                raise Refused(why_refused(line, answer[0], imported.movements.get(i)))


def why_refused(line: str, answer: str, node: Optional[RingNode]) -> str:
    """Returns why a cluster can't be imported, by the command that is refused."""
    if not node:
        return f"tcm refuses `{line[:80]}`: {answer}"
    return (
        f"{node.address} is {node.state}, and tcm refuses its movement: {answer}; without its movement: --settled "
        f"{node.address}"
    )
