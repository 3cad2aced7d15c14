"""Random scripts, logs, replays, states, disks, plans, routes and words, against the reference machine."""
from __future__ import annotations

import os
import resource
from typing import Any, Callable, Dict, List, Sequence, Tuple

from trials.both import Both
from trials.drawn.full import SCRIPTS, epochs_full, lines
from trials.drawn.lines import Drawn
from trials.drawn.logs import damaged, log_lines, replay_files, wrong_log
from trials.drawn.states import large_state, state_drawn
from trials.drawn.words import questions, wrong_words
from trials.kind import Case, Kind
from trials.machine.image import KINDS, PHASES
from trials.machine.lines import header_line, image_line
from trials.machine.session import Session
from trials.machine.store import Disk
from trials.machine.terms import MOST_BYTES

LOG, DISK, CLUSTER = b"log", b"disk", b"c1"
REFUSALS = {
    "register": "NAME-TAKEN NODES-FULL",
    "unregister": "NO-NODE IN-SEQUENCE NODE-STATE",
    "unsafe-join": "NO-NODE IN-SEQUENCE NODE-STATE NOT-IDLE TOKEN-TAKEN TOKENS-FULL",
    "keyspace": "KEYSPACES-FULL TOO-FEW-NODES KEYSPACE-LOCKED ID-REUSED EPOCHS-FULL",
    "drop-keyspace": "NO-KEYSPACE",
    "prepare-join": "NO-NODE IN-SEQUENCE NODE-STATE TOKEN-TAKEN TOKENS-FULL LOCKED",
    "prepare-move": "NO-NODE IN-SEQUENCE NODE-STATE NOT-ONE-TOKEN TOKEN-TAKEN TOKENS-FULL LOCKED",
    "prepare-leave": "NO-NODE IN-SEQUENCE NODE-STATE TOO-FEW-NODES LOCKED",
    "prepare-replace": "NO-NODE IN-SEQUENCE NODE-STATE NO-TOKENS OTHER-RACK LOCKED",
    **{f"{step}-{kind}": "NO-NODE NO-SEQUENCE WRONG-STEP" for step in ("start", "mid", "finish") for kind in KINDS},
    "cancel": "NO-NODE NO-SEQUENCE",
}
ANSWERS = {
    **{word: f"OK BAD-LINE {refusals}" for word, refusals in REFUSALS.items()},
    "place": "PLACE EPOCH FOLLOWER KEYSPACE BAD-LINE",
    "nodes": "NODES EPOCH FOLLOWER BAD-LINE",
    "quorum": "QUORUM EPOCH FOLLOWER KEYSPACE BAD-LINE",
    "local": "LOCAL EPOCH FOLLOWER KEYSPACE DC BAD-LINE",
    "follower": "AT FOLLOWER-TAKEN FOLLOWERS-FULL",
    "deliver": "AT OLD HELD FULL EPOCH FOLLOWER",
    "snapshot": "AT OLD EPOCH FOLLOWER",
    "ask": "REPLIES-FULL FOLLOWER",
    "give": "AT REPLY FOLLOWER",
}
RULES = [f"LINE {it}" for it in range(2, 8)]
ENDS = {
    "commit": [*RULES, "FORMAT", "HEADER", "CLUSTER", "NOT-ENTRY", "EPOCH", "ID", "COMMAND"],
    "replay": [*RULES, "HEADER", "CLUSTER", "FORK", "COMMAND", "NO FILE", "printed"],
    "snapshot": ["NO EPOCH", "NO FILE", "printed"],
    "plan": ["NO SEQUENCE", "NO KEYSPACE", "NO FILE", "printed"],
    "cms": ["NO NO-NODE", "NO NODE-STATE", "NO FILE", "printed"],
    "mend2": ["FILE-THERE", "NO FILE", "HEADER", "NOT-ENTRY", "EPOCH", "COMMAND", "printed"],
    "gen": ["printed"],
}
WANTED = frozenset(
    [
        *(f"{word} {it}" for word, answers in ANSWERS.items() for it in answers.split(" ")),
        *(f"{word}: {it}" for word, ends in ENDS.items() for it in ends),
        *(f"replay: IMAGE {it}" for it in range(1, 19)),
        *(f"cancel of {kind} at {phase}" for kind in KINDS for phase in PHASES),
        *(f"status {it}" for it in range(9)),
        "ask REPLY since",
        "ask REPLY image",
    ]
)


def drawn_session(case: Case, most: int) -> Session:
    """Draws a log, and returns its session."""
    session, drawn = Session(), Drawn(case)
    for _ in range(case.random.randint(3, most)):
        session.answer(f"commit {drawn.next_id} {drawn.command(session.image)}".encode())
        drawn.next_id += 1
    return session


def script(both: Both) -> None:
    """A script from an empty log."""
    both.run([b"commit"], Drawn(both.case).lines(both.case.random.randint(20, 250)))


def log(both: Both) -> None:
    """Scripts over a log file, some on a disk, with a torn end between them, and questions about the log."""
    draw, drawn = both.case.random, Drawn(both.case)
    on = [b"on", DISK] if draw.random() < 0.4 else []
    sessions: List[Session] = []
    for _ in range(draw.randint(1, 4)):
        both.run([*on, b"commit", LOG, CLUSTER], keeping(sessions, drawn, draw.randint(0, 60)))
        if draw.random() < 0.4:
            tear(both, bool(on))
        for asked in questions(draw, sessions[-1].image, LOG):
            both.run([*on, *asked])
    mend(both, on)


def keeping(sessions: List[Session], drawn: Drawn, count: int) -> Callable[[Session], Any]:
    """Returns lines that keep the session that they are drawn for."""

    def draws(session: Session) -> Any:
        sessions.append(session)
        return drawn.lines(count)(session)

    return draws


def tear(both: Both, on_disk: bool) -> None:
    """Leaves a part of a line at the end of the log, or bytes and an open gate at the end of the disk."""
    draw = both.case.random
    if on_disk:
        ends = (b"", b"\1", b"\0", b"\0\1", b"\1\0" + bytes(7) + b"\5", b"\1\2" + bytes(16), bytes(draw.randint(0, 30)))
        image = both.files[DISK]
        both.put(DISK, (image[:-1] if draw.random() < 0.5 else image) + draw.choice(ends))
    else:
        data = both.files[LOG]
        both.put(LOG, data[: -draw.randint(1, 40)] if draw.random() < 0.3 else data + data[-draw.randint(2, 30) : -1])


def mend(both: Both, on: List[bytes]) -> None:
    """Writes the log anew, as one of format 1, and as it is."""
    draw = both.case.random
    data = Disk(both.files[DISK]).load(LOG) if on else both.files[LOG]
    old = [it + b"\n" for it in (data or b"").split(b"\n")[1:-1]]
    if draw.random() < 0.3:
        old = damaged(draw, old)
    both.put(b"old", b"".join(old) if draw.random() < 0.9 else data or b"")
    for _ in range(draw.choice((1, 2))):
        both.run([b"mend2", b"old", b"new", draw.choice((b"c1", b"c2"))])


def wrong(both: Both) -> None:
    """A log that is damaged, or has a wrong entry, and a script over it."""
    case = both.case
    session = drawn_session(case, 60)
    if case.random.random() < 0.6:
        found = damaged(case.random, log_lines(session), case.random.choice((1, 1, 2, 4)))
    else:
        found = wrong_log(case.random, session)
    both.put(LOG, b"".join(found))
    both.run([b"commit", LOG, CLUSTER if case.random.random() < 0.95 else b"c2"], Drawn(case, "m").lines(5))
    for asked in questions(case.random, session.image, LOG)[:2]:
        both.run(asked)
    both.put(b"old", b"".join(found[1:]))
    both.run([b"mend2", b"old", b"new", CLUSTER])


def replay(both: Both) -> None:
    """A replay of entries and states in any order, some of them damaged."""
    draw = both.case.random
    files = replay_files(draw, drawn_session(both.case, 70))
    names = [f"part{it}".encode() for it in range(len(files))]
    for name, found in zip(names, files):
        both.put(name, b"".join(damaged(draw, found) if draw.random() < 0.2 else found))
    if draw.random() < 0.03:
        names.append(b"absent")
    both.run([b"replay", *names])


def states(both: Both) -> None:
    """Replays of states, each near one of a log: some break a rule, others are taken."""
    draw, session = both.case.random, drawn_session(both.case, 60)
    moving = [it.epoch for it in session.images if it.movements]
    for _ in range(12):
        at = draw.choice(moving) if moving and draw.random() < 0.7 else draw.randrange(len(session.images))
        found = [image_line(state_drawn(draw, session.images[at])), *log_lines(session)[at + 1 : at + 4]]
        both.put(b"state", b"".join(damaged(draw, found) if draw.random() < 0.1 else found))
        both.run([b"replay", b"state"])


def words(both: Both) -> None:
    """Words that are no command, or nearly none."""
    both.put(LOG, header_line("c1"))
    for _ in range(10):
        both.run(wrong_words(both.case.random))


def generated(both: Both) -> None:
    """A generated script."""
    draw = both.case.random
    start = draw.getrandbits(draw.choice((31, 64)))
    both.run([b"gen", b"%d" % start, b"%d" % draw.randint(0, 6)])


def full(both: Both) -> None:
    """A long script that comes to a limit, or a state at one."""
    draw, way = both.case.random, both.case.random.random()
    if way < 0.4:
        both.put(b"state", image_line(large_state(draw)))
        both.run([b"replay", b"state"])
    else:
        both.run([b"commit"], lines(draw, draw.choice(SCRIPTS)))


def epochs(both: Both) -> None:
    """A script that comes to the limit of epochs."""
    both.run([b"commit"], lines(both.case.random, epochs_full))


def faults(both: Both) -> None:
    """Runs without input, output, memory or a file that can be read: the status, and what is left."""
    case, draw = both.case, both.case.random
    os.mkdir(case.path("folder"))
    folder = os.open(case.folder, os.O_RDONLY)
    full_device = os.open("/dev/full", os.O_WRONLY)
    sparse(case)
    runs: Sequence[Tuple[int, Sequence[str], Dict[str, Any]]] = (
        (4, ("commit", "log4", "c1"), {"stdin": folder}),
        (4, ("commit",), {"stdin": folder}),
        (5, ("commit", "log5", "c1"), {"stdout": full_device}),
        (5, (), {"stdout": full_device}),
        (6, ("commit", "folder", "c1"), {}),
        (6, (draw.choice(("replay", "on")), "folder"), {}),
        (1, ("commit",), {"preexec_fn": little_memory}),
        (8, ("snapshot", "large", "0"), {}),
        (8, ("replay", "large"), {}),
    )
    for status, asked, more in runs:
        ended = case.run(asked, SCRIPT, **more)
        case.cover(f"status {ended.status}")
        if ended.status != status:
            both.differences.append(f"{asked} ended with status {ended.status}, and not {status}\n")
        if ended.out and not SAID.startswith(ended.out) and status != 8:
            both.differences.append(f"{asked} printed {ended.out!r}\n")
    for name, wanted in (("log4", HEADER), ("log5", HEADER + FIRST)):
        if case.read(name) != wanted:
            both.differences.append(f"{name} has {case.read(name)!r}\n")
    for it in (folder, full_device):
        os.close(it)
    os.remove(case.path("large"))
    case.count += len(runs)


HEADER = header_line("c1")
FIRST = b'{"command":{"dc":"dc1","kind":"register","name":"a","rack":"r1"},"entry":1,"epoch":1}\n'
SCRIPT = b"commit 1 register a dc1 r1\ncommit 2 unsafe-join 1 5\n" + b"".join(
    b"commit %d register n%d dc1 r1\n" % (it, it) for it in range(3, 900)
)
SAID = b"".join(b"OK %d\n" % it for it in range(1, 900))


def little_memory() -> None:
    """Leaves a process little memory."""
    resource.setrlimit(resource.RLIMIT_AS, (1 << 22, 1 << 22))


def sparse(case: Case) -> None:
    """Makes a file of one byte more than a run loads."""
    with open(case.path("large"), "wb") as it:
        it.truncate(MOST_BYTES + 1)


CASES: Sequence[Tuple[float, Callable[[Both], None]]] = (
    (45, script),
    (20, log),
    (8, wrong),
    (12, replay),
    (6, states),
    (2, words),
    (1, generated),
    (1.6, full),
    (0.1, epochs),
    (0.3, faults),
)


def one_case(case: Case) -> str:
    """Runs a case of one of these."""
    both = Both(case)
    case.random.choices([it for _, it in CASES], [weight for weight, _ in CASES])[0](both)
    return "".join(both.differences)


KIND = Kind(
    "random",
    "random scripts, logs, replays, states, disks, plans and routes, against a reference machine",
    "lines",
    one_case,
    WANTED,
    1_000_000,
)
