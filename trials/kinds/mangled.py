"""Log files, states, replays and disks of which bytes are mangled, against the reference machine."""
from __future__ import annotations

import random
from typing import List

from trials.both import Both
from trials.drawn.lines import Drawn
from trials.drawn.logs import damaged, log_lines, replay_files
from trials.drawn.words import questions
from trials.kind import Case, Kind
from trials.kinds.random_lines import CLUSTER, DISK, LOG, drawn_session
from trials.machine.lines import image_line
from trials.machine.store import Disk

SOME = [b"", b'"', b"\\", b"\\u00", b"0", b"-0", b"1e400", b"9" * 30, b"{", b"[" * 130, b"}", b",", b":"]
SOME += [b"\n", b"\r", b"\0", b"\xff", b"\xc3\xa9"]


def bytes_mangled(draw: random.Random, data: bytes) -> bytes:
    """Returns bytes with some flipped, cut, doubled or exchanged for others."""
    found = bytearray(data)
    for _ in range(draw.choice((1, 1, 1, 2, 3, 8))):
        at, to = sorted(draw.randint(0, len(found)) for _ in range(2))
        near = min(to, at + draw.choice((0, 1, 2, 5, 20)))
        way = draw.randrange(6)
        if way == 0 and at < len(found):
            found[at] ^= 1 << draw.randrange(8)
        elif way == 1:
            found[at:near] = draw.choice(SOME)
        elif way == 2:
            found[at:at] = found[at:near]
        elif way == 3:
            del found[at:near]
        elif way == 4 and draw.random() < 0.2:
            del found[at:]
        elif way == 5:
            found[at:near] = found[to : to + draw.randint(0, 20)]
    return bytes(found)


def lines_mangled(draw: random.Random, found: List[bytes]) -> bytes:
    """Returns the bytes of lines, with lines or bytes mangled."""
    if draw.random() < 0.4:
        return b"".join(damaged(draw, found, draw.randint(1, 3)))
    return bytes_mangled(draw, b"".join(found))


def log(both: Both) -> None:
    """A log file, given to each command that reads one."""
    draw, session = both.case.random, drawn_session(both.case, 40)
    both.put(LOG, lines_mangled(draw, log_lines(session)))
    for words in questions(draw, session.image, LOG):
        both.run(words)
    both.run([b"commit", LOG, CLUSTER], Drawn(both.case, "m").lines(5))
    both.put(b"old", lines_mangled(draw, log_lines(session)[1:]))
    both.run([b"mend2", b"old", b"new", CLUSTER])


def replay(both: Both) -> None:
    """Files of a replay."""
    draw = both.case.random
    found = replay_files(draw, drawn_session(both.case, 40))
    names = [f"part{it}".encode() for it in range(len(found))]
    for name, it in zip(names, found):
        both.put(name, lines_mangled(draw, it))
    both.run([b"replay", *names])


def state(both: Both) -> None:
    """States."""
    draw, session = both.case.random, drawn_session(both.case, 40)
    for _ in range(6):
        both.put(b"state", lines_mangled(draw, [image_line(draw.choice(session.images))]))
        both.run([b"replay", b"state"])


def disk(both: Both) -> None:
    """A disk, and two scripts over it."""
    draw, made = both.case.random, Disk(None)
    found = log_lines(drawn_session(both.case, 20))
    made.replace(LOG, found[0])
    for line in found[1:]:
        made.append(LOG, line)
    both.put(DISK, bytes_mangled(draw, bytes(made.image)))
    for _ in range(2):
        both.run([b"on", DISK, b"commit", LOG, CLUSTER], Drawn(both.case, "m").lines(6))
    both.run([b"on", DISK, b"replay", LOG])


def one_case(case: Case) -> str:
    """Runs a case of one of these."""
    both = Both(case)
    case.random.choice((log, log, replay, state, disk))(both)
    case.count = both.made
    return "".join(both.differences)


KIND = Kind("mangled", "log files, states, replays and disks of which bytes or lines are mangled", "files", one_case)
