"""How many replicas quorums can still lose while nodes are down, from the answers to `quorum` and `local`."""
from __future__ import annotations

from dataclasses import dataclass, field
from typing import Dict, List, Sequence, Set, Tuple

from tools.answers import Node, Quorum, Row, read_quorum, read_row
from tools.flight import Trial
from tools.terms import GREATEST

Level = Tuple[str, str]  # a keyspace, and QUORUM or LOCAL_QUORUM with its datacenter
Shape = Tuple[int, int]  # how many nodes are read and written, by datacenter, and how many of them are up
DIGIT = 12  # bits of a count


@dataclass(frozen=True)
class Margin:
    """How many live replicas reads and writes have past their need, at the row where they have the fewest."""

    reads: int
    reads_at: str
    writes: int
    writes_at: str

    def with_lesser(self, other: Margin) -> Margin:
        """Returns the lesser of both, for reads and for writes."""
        reads = min((self.reads, self.reads_at), (other.reads, other.reads_at), key=lambda it: it[0])
        writes = min((self.writes, self.writes_at), (other.writes, other.writes_at), key=lambda it: it[0])
        return Margin(*reads, *writes)


@dataclass
class Look:
    """What the placement of a keyspace shows: a row of each shape, and how many tokens are streamed to each node."""

    rows: Dict[Shape, str] = field(default_factory=dict)
    moved: Dict[int, int] = field(default_factory=dict)

    def add_moved(self, row: Row) -> None:
        """Adds the tokens of a row to each node that is written and not read."""
        for node in row.pending:
            self.moved[node] = self.moved.get(node, 0) + row.width


class Quorums:
    """The answers to `quorum` and `local` so far: rows of a keyspace with the same shape have the same margins."""

    def __init__(self, trial: Trial, replications: Dict[str, str], nodes: Sequence[Node], down: Set[int]) -> None:
        self.trial, self.replications, self.down = trial, replications, down
        self.codes = Codes(down)
        self.codes.add(nodes)
        self.known: Dict[Tuple[Level, Shape], Tuple[int, int]] = {}  # what reads and writes have past their need

    def look(self, keyspace: str) -> Look:
        """Returns what the placement of a keyspace shows now."""
        found, shape_of = Look(), self.codes.shape_of
        for line in self.trial.session.ask(f"place @{self.trial.epoch} {keyspace}")[1:]:
            place, _, lists = line.partition(" read ")
            reads, _, writes = lists.partition(" write ")
            found.rows.setdefault(shape_of(reads, writes), place)
            if reads != writes:
                found.add_moved(read_row(line, 0))
        return found

    def margins(self, keyspace: str, look: Look) -> Dict[Level, Margin]:
        """Returns the margins of a keyspace: of QUORUM, and of LOCAL_QUORUM in each datacenter that it names."""
        found: Dict[Level, Margin] = {}
        for level, words in levels_of(keyspace, self.replications[keyspace]):
            self.ask(level, words, look.rows)
            found[level] = margin_of([(self.known[level, shape], row) for shape, row in look.rows.items()])
        return found

    def ask(self, level: Level, words: str, rows: Dict[Shape, str]) -> None:
        """Asks for the quorums at rows whose shape wasn't seen before."""
        new = [it for it in rows if (level, it) not in self.known]
        head = words.format(epoch=self.trial.epoch)
        answers = self.trial.session.ask_all([f"{head} {end_of(rows[it])}" for it in new])
        self.known.update({(level, it): spare(read_quorum(said[0]), self.down) for it, said in zip(new, answers)})


class Codes:
    """Counts nodes of lists: a number for each list, with how many of its nodes are in each datacenter, and are up."""

    def __init__(self, down: Set[int]) -> None:
        self.down = down
        self.places: Dict[str, int] = {}
        self.of_node: Dict[str, int] = {"-": 0}

    def add(self, nodes: Sequence[Node]) -> None:
        """Makes nodes known."""
        for it in nodes:
            digit = 1 << 2 * DIGIT * self.places.setdefault(it.dc, len(self.places))
            self.of_node[str(it.id)] = digit if it.id in self.down else digit + (digit << DIGIT)

    def shape_of(self, reads: str, writes: str) -> Shape:
        """Returns the shape of a row with these lists."""
        code = sum(map(self.of_node.__getitem__, reads.split(",")))
        return code, code if reads == writes else sum(map(self.of_node.__getitem__, writes.split(",")))


def end_of(row: str) -> int:
    """Returns the last token of a row, for example of `(0,max]`."""
    end = row.partition(",")[2][:-1]
    return GREATEST if end == "max" else int(end)


def levels_of(keyspace: str, replication: str) -> List[Tuple[Level, str]]:
    """Returns the consistency levels of a keyspace, each with the query that asks for it."""
    levels = [((keyspace, "QUORUM"), f"quorum @{{epoch}} {keyspace}")]
    if replication.startswith("topology "):
        for factor in replication.split()[1:]:
            dc = factor.partition(":")[0]
            levels.append(((keyspace, f"LOCAL_QUORUM {dc}"), f"local @{{epoch}} {keyspace} {dc}"))
    return levels


def spare(quorum: Quorum, down: Set[int]) -> Tuple[int, int]:
    """Returns how many live replicas reads and writes have past their need."""
    reads, writes = (sum(it not in down for it in nodes) for nodes in (quorum.reads, quorum.writes))
    return reads - quorum.read_need, writes - quorum.write_need


def margin_of(spares: Sequence[Tuple[Tuple[int, int], str]]) -> Margin:
    """Returns the margin of rows, each with what reads and writes have past their need."""
    (reads, _), reads_at = min(spares, key=lambda it: it[0][0])
    (_, writes), writes_at = min(spares, key=lambda it: it[0][1])
    return Margin(reads, reads_at, writes, writes_at)


def least(found: Sequence[Dict[Level, Margin]]) -> Dict[Level, Margin]:
    """Returns the least margins of several moments."""
    all_: Dict[Level, Margin] = {}
    for moment in found:
        for level, margin in moment.items():
            all_[level] = all_[level].with_lesser(margin) if level in all_ else margin
    return all_
