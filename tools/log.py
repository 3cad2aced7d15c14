"""What touches log files: their states, copies of them, and the ids that they have."""
from __future__ import annotations

import json
import os
import re
import shutil
from contextlib import contextmanager
from dataclasses import dataclass
from functools import cached_property
from typing import Any, Dict, Iterable, Iterator, List, Optional

from tools.answers import Movement, Node, Nodes, Placement, read_nodes, read_placement
from tools.errors import Refused
from tools.files import MOST_HEADER, object_in, scratch
from tools.on_disk import check_no_disk, is_there, open_log
from tools.program import Run, Session, run

NO_EPOCH_IS_AS_GREAT = str(2**64 - 1)
MOST_ID = 2**64 - 1


@dataclass
class State:
    """A state of a log: the answer to `nodes`. Replications and placements are asked for once they are needed."""

    log: str
    nodes: Nodes

    @property
    def epoch(self) -> int:
        """The epoch of the state."""
        return self.nodes.epoch

    @property
    def movements(self) -> List[Movement]:
        """The movements in flight, by node."""
        return list(self.nodes.movements)

    @cached_property
    def by_id(self) -> Dict[int, Node]:
        """The nodes by their ids."""
        return {it.id: it for it in self.nodes.nodes}

    @cached_property
    def by_name(self) -> Dict[str, Node]:
        """The nodes by their names."""
        return {it.name: it for it in self.nodes.nodes}

    @cached_property
    def image(self) -> Dict[str, Any]:
        """The state as the program prints it."""
        with copy_of(self.log) as copy:
            ended = run(["snapshot", copy, str(self.epoch)])
        if ended.status != 0:
            raise refusal(self.log, ended)
        image: Dict[str, Any] = json.loads(ended.out.splitlines()[-1])["snapshot"]
        return image

    @cached_property
    def replications(self) -> Dict[str, str]:
        """The replication of each keyspace."""
        return {it["name"]: it["replication"] for it in self.image["keyspaces"]}

    @property
    def next_id(self) -> int:
        """The id that the next node gets."""
        return int(self.image["next"])

    def place(self, keyspace: str) -> Placement:
        """Returns the placement of a keyspace."""
        return list(self.places([keyspace]))[0]

    def places(self, keyspaces: Iterable[str]) -> Iterator[Placement]:
        """Gives the placements of keyspaces, one after another, as all of them may have no room."""
        with copy_of(self.log) as copy, Session(words_on(copy)) as session:
            for it in keyspaces:
                yield read_placement(session.ask(f"place @{self.epoch} {it}"))

    def distinct(self) -> Dict[str, List[str]]:
        """Returns one keyspace of each replication, the least, with all keyspaces that have it."""
        names: Dict[str, List[str]] = {}
        for keyspace in sorted(self.replications):
            names.setdefault(self.replications[keyspace], []).append(keyspace)
        return {it[0]: it for it in names.values()}


def last_epoch(log: str) -> int:
    """Returns the last epoch of a log, whose lines are all checked."""
    with copy_of(log) as copy:
        ended = run(["snapshot", copy, NO_EPOCH_IS_AS_GREAT])
    found = re.fullmatch(rb"NO EPOCH (\d+)\s*", ended.out)
    if not found:
        raise refusal(log, ended)
    return int(found[1])


def state(log: str, epoch: Optional[int] = None, name: str = "") -> State:
    """Returns the state of a log at an epoch, the last one if none is given; `name` is what messages call the file."""
    with copy_of(log) as copy, Session(words_on(copy)) as session:
        answer = session.ask(f"nodes @{NO_EPOCH_IS_AS_GREAT if epoch is None else epoch}")
        if epoch is None and answer[0].startswith("NO EPOCH "):
            answer = session.ask(f"nodes @{answer[0].split()[-1]}")
        if not answer[0].startswith("NODES "):
            raise refused(name or log, answer[0], session.close())
    return State(log, read_nodes(answer))


def refusal(log: str, ended: Run) -> Refused:
    """Returns why a log has no such state, as a run told."""
    return refused(log, ended.lines[0] if ended.lines else "", ended.status)


def refused(log: str, said: str, status: int) -> Refused:
    """Returns why a log has no such state, by the first line of the answer and the status."""
    found = re.fullmatch(r"REFUSED 1 (\d+) (.*)", said)
    if found:
        return Refused(f"{log}: line {found[1]} is refused: {found[2]}; see docs/operators.md, Refused files")
    if said.startswith("NO FILE"):
        return Refused(f"{log}: no such log file")
    if said.startswith("NO EPOCH"):
        return Refused(f"{log}: its last epoch is {said.split()[-1]}")
    return Refused(f"{log}: tcm ended with status {status}" + (f": {said}" if said else ""))


def check_kind(log: str) -> None:
    """Checks that a path that is there is a file: a device may have no end."""
    if os.path.exists(log) and not os.path.isfile(log):
        raise Refused(f"{log}: this is no file, so it can't be a log file")
    if os.path.exists(log):
        try:
            check_no_disk(log)
        except OSError as why:
            raise Refused(f"{log}: {why.strerror}") from why


@contextmanager
def copy_of(log: str) -> Iterator[str]:
    """Gives the path of a copy of a log's whole lines, which is removed afterwards."""
    check_kind(log)
    if not is_there(log):
        raise Refused(f"{log}: no such log file")
    with scratch() as folder:
        path = os.path.join(folder, "copy.log")
        try:
            with open_log(log) as held, open(path, "wb") as it:
                shutil.copyfileobj(held, it)
        except OSError as why:
            raise Refused(f"{log}: {why.strerror}") from why
        yield path


def cluster_of(log: str) -> Optional[str]:
    """Returns the cluster that the header of a log file names, if there is one."""
    if not is_there(log):
        return None
    try:
        with open_log(log) as lines:
            header = object_in(lines.readline(MOST_HEADER + 1))
    except OSError as why:
        raise Refused(f"{log}: {why.strerror}") from why
    name = header.get("cluster")
    return name if isinstance(name, str) else None


def words_on(copy: str) -> List[str]:
    """Returns the words after `tcm commit` for a copy of a log. A copy without a header gets one, of any name."""
    return [copy, cluster_of(copy) or "copy"]


def epochs_by_id(log: str) -> Dict[int, int]:
    """Returns the epochs of the commits in a log file by their ids; an absent file has none."""
    if not is_there(log):
        return {}
    try:
        with open_log(log) as lines:
            entries = map(object_in, lines)
            return {it["entry"]: it["epoch"] for it in entries if is_number(it, "entry") and is_number(it, "epoch")}
    except OSError as why:
        raise Refused(f"{log}: {why.strerror}") from why


def is_number(entry: Dict[str, Any], key: str) -> bool:
    """Returns whether an entry has a number under a key."""
    return isinstance(entry.get(key), int)


def fresh_ids(log: str) -> Iterator[int]:
    """Gives ids that no commit of a log has: the numbers past the greatest, then those that are free below."""
    used = epochs_by_id(log)
    greatest = max(used, default=0)
    yield from range(greatest + 1, MOST_ID + 1)
    yield from (it for it in range(1, greatest) if it not in used)


def is_absent_or_empty(log: str) -> bool:
    """Returns whether a log file has nothing yet."""
    check_kind(log)
    if not is_there(log):
        return True
    with open_log(log) as it:
        return not it.read(1)
