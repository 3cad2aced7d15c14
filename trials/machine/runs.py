"""Runs: what the words, the files and the input lead to."""
from __future__ import annotations

from dataclasses import dataclass, field
from typing import Callable, Dict, Iterable, List, Optional, Sequence, Union

from trials.machine.follower import Follower, Fork, Refused
from trials.machine.answers import nodes_text, place_text
from trials.machine.generated import summary
from trials.machine.history import commit_refusal
from trials.machine.image import Image
from trials.machine.lines import (
    Broken,
    Header,
    Numbered,
    Said,
    entry_cause,
    entry_line,
    header_cause,
    header_line,
    image_line,
    reading,
    whole_lines,
)
from trials.machine.members import member_refusal, members_of, route
from trials.machine.session import Session, lines_of
from trials.machine.store import Disk, Files
from trials.machine.streams import plan_rows
from trials.machine.terms import IDS, MOST_BYTES, MOST_FILES, MOST_ROUNDS, NODES, is_name, number_of
from trials.machine.valid import bad_of

Store = Union[Files, Disk]
Words = Sequence[bytes]
Script = Callable[[Session], Iterable[bytes]]  # gives lines, which may depend on the session before each
USAGE = (
    "usage: tcm commit [LOG CLUSTER] | replay FILE.. | snapshot LOG E | gen START N | mend2 OLD NEW CLUSTER"
    " | plan LOG NODE KS | cms LOG FROM TO"
)


class Ending(Exception):
    """A run that ends early: its status and the lines that it prints."""

    def __init__(self, status: int, *lines: str):
        super().__init__(status, lines)
        self.status, self.lines = status, list(lines)


@dataclass
class Run:
    """A run that has ended: its status, its answers, and the files afterwards."""

    status: int
    answers: List[List[str]] = field(default_factory=list)

    @property
    def out(self) -> bytes:
        """The bytes that are printed."""
        return "".join(f"{line}\n" for answer in self.answers for line in answer).encode("utf-8", "surrogateescape")


def shown(name: bytes) -> str:
    """Returns a name of a file as it is printed."""
    return name.decode("utf-8", "surrogateescape")


def loaded(store: Store, name: bytes) -> Optional[bytes]:
    """Returns the bytes of a file, if it is there and not too large."""
    data = store.load(name)
    if data is not None and len(data) > MOST_BYTES:
        raise Ending(8, f"TOO-LARGE {MOST_BYTES}")
    return data


def needed(store: Store, name: bytes) -> bytes:
    """Returns the bytes of a file that has to be there."""
    data = loaded(store, name)
    if data is None:
        raise Ending(7, f"NO FILE {shown(name)}")
    return data


def refuse(file: int, line: int, cause: str, *more: str) -> Ending:
    """Returns the ending at a line of a file."""
    return Ending(3, f"REFUSED {file} {line} {cause}", *more)


def said_on(file: int, number: int, line: bytes) -> Said:
    """Returns what a line says, or ends the run."""
    try:
        return reading(line)
    except Broken as why:
        raise refuse(file, number, str(why)) from why


def take_entries(session: Session, lines: Sequence[bytes], first: int) -> None:
    """Takes the entries of a log over, from a line on."""
    for number, line in enumerate(lines[first - 1 :], first):
        said = said_on(1, number, line)
        cause = entry_cause(said, session.image.epoch + 1, session.epochs)
        if cause is not None or not isinstance(said, Numbered):
            raise refuse(1, number, str(cause))
        refusal = commit_refusal(session.image, said.entry[1])
        if refusal is not None:
            raise refuse(1, number, f"COMMAND {said.epoch} {refusal}")
        session.push(*said.entry)


def log_for(data: bytes, cluster: Optional[str]) -> Session:
    """Returns the session of a log file: a header on line 1, then entry after entry."""
    session, lines = Session(), whole_lines(data)
    if lines:
        cause = header_cause(said_on(1, 1, lines[0]), cluster)
        if cause is not None:
            raise refuse(1, 1, cause)
        take_entries(session, lines, 2)
    return session


def settle(store: Store, name: bytes, data: Optional[bytes], cluster: str) -> None:
    """Leaves whole lines in a log file, or the header alone if there are none."""
    whole = b"".join(it + b"\n" for it in whole_lines(data or b""))
    if not whole:
        store.replace(name, header_line(cluster))
    elif whole != data:
        store.replace(name, whole)


def given(script: bytes) -> Script:
    """Returns the lines of an input that is known from the beginning."""
    return lambda session: lines_of(script[:MOST_BYTES])


def answered(session: Session, script: Script, keep: Callable[[bytes], None]) -> Run:
    """Answers a script, and keeps the line of each accepted command before it is answered."""
    ended = Run(0)
    for line in script(session):
        before = session.image.epoch
        answer = session.answer(line)
        if session.image.epoch > before:
            keep(entry_line(session.image.epoch, session.entries[-1]))
        ended.answers.append(answer)
    return ended


def commit(_: Store, words: Words, script: Script) -> Optional[Run]:
    """`commit`, from an empty log."""
    return None if words else answered(Session(), script, lambda line: None)


def commit_to(store: Store, words: Words, script: Script) -> Optional[Run]:
    """`commit LOG CLUSTER`."""
    if len(words) != 2 or not words[0] or not is_name(shown(words[1])):
        return commit(store, words, script)
    name, cluster = words[0], shown(words[1])
    data = loaded(store, name)
    session = log_for(data or b"", cluster)
    settle(store, name, data, cluster)
    return answered(session, script, lambda line: store.append(name, line))


@dataclass
class Replay:
    """A replay: its follower, how many lines it had and found no room for, and the cluster that its headers name."""

    follower: Follower = field(default_factory=Follower)
    lines: int = 0
    full: int = 0
    cluster: Optional[str] = None

    def header(self, number: int, said: Header) -> Optional[str]:
        """Takes a header, or returns why it is refused."""
        if number != 1:
            return "HEADER"
        if self.cluster not in (None, said.cluster):
            return f"CLUSTER {self.cluster} {said.cluster}"
        self.cluster = said.cluster
        return None

    def take(self, file: int, number: int, line: bytes) -> None:
        """Hands over what a line says."""
        said, cause = said_on(file, number, line), None
        self.lines += 1
        try:
            if isinstance(said, Header):
                cause = self.header(number, said)
            elif isinstance(said, Image):
                cause = bad_of(said)
                if cause is None:
                    self.follower.hand_image(said)
            elif self.follower.hand_entry(said.epoch, said.entry) == "FULL":
                self.full += 1
        except Fork as fork:
            assert isinstance(said, Numbered)
            both = [entry_line(said.epoch, it).decode().rstrip("\n") for it in (fork.waiting, said.entry)]
            raise refuse(file, number, str(fork), *both) from fork
        except Refused as why:
            cause = str(why)
        if cause is not None:
            raise refuse(file, number, cause)

    def report(self) -> Run:
        """Returns the report."""
        image = self.follower.image
        head = f"REPLAY {self.lines} at {image.epoch} waiting {len(self.follower.waiting)} full {self.full}"
        return Run(0, [[head], nodes_text(image), *(place_text(image, it.name) for it in image.keyspaces)])


def replay(store: Store, words: Words, _: Script) -> Optional[Run]:
    """`replay FILE ..`."""
    if not 1 <= len(words) <= MOST_FILES or not all(words):
        return None
    done = Replay()
    for file, name in enumerate(words, 1):
        for number, line in enumerate(whole_lines(needed(store, name)), 1):
            done.take(file, number, line)
    return done.report()


def snapshot(store: Store, words: Words, _: Script) -> Optional[Run]:
    """`snapshot LOG E`."""
    epoch = number_of(shown(words[1]), IDS) if len(words) == 2 and words[0] else None
    if epoch is None:
        return None
    session = log_for(needed(store, words[0]), None)
    if epoch > session.image.epoch:
        raise Ending(7, f"NO EPOCH {session.image.epoch}")
    return Run(0, [[image_line(session.images[epoch]).decode().rstrip("\n")]])


def plan(store: Store, words: Words, _: Script) -> Optional[Run]:
    """`plan LOG NODE KS`."""
    node = number_of(shown(words[1]), NODES) if len(words) == 3 and words[0] else None
    if node is None or not is_name(shown(words[2])):
        return None
    image, name = log_for(needed(store, words[0]), None).image, shown(words[2])
    movement, keyspace = image.movement(node), image.keyspace(name)
    if movement is None:
        raise Ending(7, "NO SEQUENCE")
    if keyspace is None:
        raise Ending(7, "NO KEYSPACE")
    rows = plan_rows(image, movement, keyspace.replication)
    return Run(0, [[f"PLAN {image.epoch} {node} {name} {len(rows)}", *rows]])


def cms(store: Store, words: Words, _: Script) -> Optional[Run]:
    """`cms LOG FROM TO`."""
    if len(words) != 3 or not words[0]:
        return None
    old, new = members_of(shown(words[1])), members_of(shown(words[2]))
    if old is None or new is None:
        return None
    refusal = member_refusal(log_for(needed(store, words[0]), None).image, old, new)
    if refusal is not None:
        raise Ending(7, refusal)
    lines = route(old, new)
    return Run(0, [[f"CMS {len(lines)}", *lines]])


def mend2(store: Store, words: Words, _: Script) -> Optional[Run]:
    """`mend2 OLD NEW CLUSTER`."""
    if len(words) != 3 or not words[0] or not words[1] or not is_name(shown(words[2])):
        return None
    session = Session()
    take_entries(session, whole_lines(needed(store, words[0])), 1)
    if store.load(words[1]) is not None:
        raise Ending(7, f"FILE-THERE {shown(words[1])}")
    lines = [entry_line(epoch, it) for epoch, it in enumerate(session.entries, 1)]
    store.replace(words[1], header_line(shown(words[2])) + b"".join(lines))
    return Run(0, [[f"MENDED {len(lines)}"]])


def gen(_: Store, words: Words, __: Script) -> Optional[Run]:
    """`gen START N`."""
    if len(words) != 2:
        return None
    start, rounds = number_of(shown(words[0]), IDS), number_of(shown(words[1]), MOST_ROUNDS + 1)
    return None if start is None or rounds is None else Run(0, [summary(start, rounds)])


COMMANDS: Dict[bytes, Callable[[Store, Words, Script], Optional[Run]]] = {
    b"commit": commit_to,
    b"replay": replay,
    b"snapshot": snapshot,
    b"plan": plan,
    b"cms": cms,
    b"mend2": mend2,
    b"gen": gen,
}


def run(store: Store, words: Words, script: Script) -> Run:
    """Returns how a run ends, and changes the files of the store as it does."""
    command = COMMANDS.get(words[0]) if words else None
    try:
        ended = None if command is None else command(store, words[1:], script)
    except Ending as it:
        return Run(it.status, [it.lines])
    return Run(2, [[USAGE]]) if ended is None else ended


def run_on(files: Dict[bytes, bytes], words: Words, script: Script) -> Run:
    """Returns how a run ends by its words, `on DISK` among them, and changes the files as it does."""
    if len(words) > 1 and words[0] == b"on" and words[1]:
        disk = Disk(files.get(words[1]))
        ended = run(disk, words[2:], script)
        files[words[1]] = bytes(disk.image)
        return ended
    store = Files(files)
    ended = run(store, words, script)
    files.update(store.files)
    return ended
