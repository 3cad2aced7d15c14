"""Logs, replays and their damage, drawn from a session."""
from __future__ import annotations

import json
import random
from dataclasses import replace
from typing import Any, Callable, Dict, List, Sequence, Tuple

from trials.machine.commands import Command
from trials.machine.follower import Entry
from trials.machine.lines import entry_line, header_line, image_line
from trials.machine.session import Session
from trials.machine.terms import MOST_FILE_LINE

Lines = List[bytes]  # of a file, each with its line feed


def log_lines(session: Session, cluster: str = "c1") -> Lines:
    """Returns the lines of a session's log."""
    return [header_line(cluster), *(entry_line(epoch, it) for epoch, it in enumerate(session.entries, 1))]


def respelled(draw: random.Random, value: Any) -> str:
    """Returns a JSON text of a value, spelled otherwise than the program spells it."""
    space = draw.choice(("", "", " ", "\t", " \r "))
    if isinstance(value, dict):
        keys = draw.sample(list(value), len(value))
        parts = [f"{respelled(draw, it)}{space}:{respelled(draw, value[it])}" for it in keys]
        if keys and draw.random() < 0.2:
            parts.insert(0, f'"{keys[0]}":{draw.choice(("null", "[[]]", "1e9", "-0", "{}"))}')
        return "{" + space + f"{space},".join(parts) + space + "}"
    if isinstance(value, list):
        return "[" + f",{space}".join(respelled(draw, it) for it in value) + space + "]"
    if isinstance(value, str) and value and draw.random() < 0.2:
        at = draw.randrange(len(value))
        return f'"{value[:at]}\\u{ord(value[at]):04{draw.choice("xX")}}{value[at + 1:]}"'
    return json.dumps(value)


def other_value(draw: random.Random, value: Any) -> Any:
    """Returns another value: near the old one, or of another form."""
    if isinstance(value, dict) and value:
        return changed(draw, value)
    if isinstance(value, bool):
        return draw.choice((not value, None, 0))
    if isinstance(value, int):
        far = (0, 2**32 - 1, 2**32, 2**63, 2**64 - 1, 2**64, 1.5, str(value), 10**30)
        return draw.choice((value + 1, value - 1, -value, *far))
    if isinstance(value, str):
        near = ("", "a", value + "x", value * 20, "é", 7, None, [value])
        return draw.choice((*near, "simple 3", "topology dc1:2 dc1:1", "join", "MID"))
    if isinstance(value, list) and value and draw.random() < 0.7:
        return draw.choice((value[::-1], value[1:], value + value[-1:], [*value[:-1], other_value(draw, value[-1])]))
    return draw.choice(([], {}, None, True, value))


def changed(draw: random.Random, value: Dict[str, Any]) -> Dict[str, Any]:
    """Returns an object with one key less, one more, or another value."""
    key, way = draw.choice(list(value)), draw.random()
    if way < 0.1:
        return {it: value[it] for it in value if it != key}
    return {**value, **({"more": 1} if way < 0.2 else {key: other_value(draw, value[key])})}


def with_value(draw: random.Random, lines: Lines, at: int) -> Lines:
    """Changes a value of a line."""
    try:
        value = json.loads(lines[at])
    except ValueError:
        return lines
    value = changed(draw, value) if isinstance(value, dict) and value else value
    return [*lines[:at], json.dumps(value, separators=(",", ":")).encode() + b"\n", *lines[at + 1 :]]


def with_spelling(draw: random.Random, lines: Lines, at: int) -> Lines:
    """Spells a line otherwise."""
    try:
        text = respelled(draw, json.loads(lines[at]))
    except ValueError:
        return lines
    return [*lines[:at], text.encode("utf-8", "surrogatepass") + b"\n", *lines[at + 1 :]]


def without_line(_: random.Random, lines: Lines, at: int) -> Lines:
    """Takes a line away."""
    return [*lines[:at], *lines[at + 1 :]]


def with_double(draw: random.Random, lines: Lines, at: int) -> Lines:
    """Doubles a line somewhere."""
    to = draw.randint(0, len(lines))
    return [*lines[:to], lines[at], *lines[to:]]


def with_exchange(draw: random.Random, lines: Lines, at: int) -> Lines:
    """Exchanges two lines."""
    lines, to = list(lines), draw.randrange(len(lines))
    lines[at], lines[to] = lines[to], lines[at]
    return lines


def with_bytes(draw: random.Random, lines: Lines, at: int) -> Lines:
    """Changes, adds or takes away some bytes of a line."""
    line = bytearray(lines[at])
    for _ in range(draw.randint(1, 3)):
        to = draw.randrange(len(line) + 1)
        other = (b"", b'"', b"\\", b"0", b"[", b"\n", bytes([draw.randrange(256)]))
        line[to : to + draw.randint(0, 2)] = draw.choice(other)
    return [*lines[:at], bytes(line), *lines[at + 1 :]]


def with_other_line(draw: random.Random, lines: Lines, at: int) -> Lines:
    """Adds a line that isn't an entry, or is at an edge of a rule."""
    other = (
        b"\n",
        b"{}\n",
        b"null\n",
        b'{"snapshot":{}}\n',
        header_line("c1"),
        header_line("c2"),
        header_line("c1").replace(b"2}", b"1}"),
        header_line("c" * draw.choice((32, 33))),
        b"[" * draw.choice((127, 128)) + b"]" * 127 + b"\n",
        b'{"entry":' + draw.choice((b"1e308", b"1e309", b"-1e999", b"9" * 400, b"1.7976931348623158e308")) + b"}\n",
        b'{"entry":"\\ud83d\\ude00\\ud83d"}\n',
        b"\xef\xbb\xbf{}\n",
    )
    if draw.random() < 0.01:
        return [*lines[:at], b" " * draw.choice((MOST_FILE_LINE, MOST_FILE_LINE + 1)) + b"\n", *lines[at:]]
    return [*lines[:at], draw.choice(other), *lines[at:]]


WAYS: Sequence[Callable[[random.Random, Lines, int], Lines]] = (
    with_value,
    with_value,
    with_spelling,
    with_spelling,
    without_line,
    with_double,
    with_exchange,
    with_bytes,
    with_other_line,
)


def damaged(draw: random.Random, lines: Lines, times: int = 1) -> Lines:
    """Returns lines with some damage, or spelled otherwise."""
    for _ in range(times):
        if lines:
            lines = draw.choice(WAYS)(draw, lines, draw.randrange(len(lines)))
    return lines


def other_entry(draw: random.Random, session: Session, epoch: int) -> bytes:
    """Returns an entry that a log doesn't have at this epoch: another id or command, maybe a refused one."""
    number, command = session.entries[epoch - 1]
    way = draw.randrange(5)
    if way == 4 and len(command.tokens) > 1:
        return entry_line(epoch, (number, replace(command, tokens=command.tokens[::-1])))
    if way == 0:
        return entry_line(epoch, (session.entries[draw.randrange(epoch)][0], command))
    if way == 1:
        return entry_line(epoch, (number, replace(session.entries[draw.randrange(len(session.entries))][1])))
    words = ("register", "unregister", "cancel", "prepare-leave", "start-join", "mid-move", "finish-replace")
    fields: Dict[str, Any] = {"node": draw.randint(0, session.image.next)}
    word = draw.choice(words)
    if word == "register":
        fields = {"name": f"x{epoch}", "dc": "dc1", "rack": "r1"}
    return entry_line(epoch, (number, Command(word, **fields)))


def wrong_log(draw: random.Random, session: Session) -> Lines:
    """Returns a log with an entry in the place of another one, or a state in it."""
    lines = log_lines(session)
    if len(lines) < 2:
        return lines
    at = draw.randrange(1, len(lines))
    if draw.random() < 0.15:
        return [*lines[:at], image_line(session.images[at - 1]), *lines[at:]]
    several = [epoch for epoch, (_, command) in enumerate(session.entries, 1) if len(command.tokens) > 1]
    if several and draw.random() < 0.3:
        at = draw.choice(several)
    return [*lines[:at], other_entry(draw, session, at), *lines[at + 1 :]]


def replay_files(draw: random.Random, session: Session) -> List[Lines]:
    """Returns the files of a replay: entries and states in any order, some lost, some twice."""
    entries: List[Tuple[int, Entry]] = list(enumerate(session.entries, 1))
    lines = [entry_line(epoch, it) for epoch, it in entries if draw.random() < 0.95]
    lines += [image_line(session.images[draw.randrange(len(session.images))]) for _ in range(draw.choice((0, 0, 1, 2)))]
    lines += [it for it in lines if draw.random() < 0.05]
    if draw.random() < 0.7:
        draw.shuffle(lines)
    if session.entries and draw.random() < 0.3:
        lines.insert(draw.randint(0, len(lines)), other_entry(draw, session, draw.randint(1, len(entries))))
    count = draw.choice((1, 1, 2, 3))
    files = [lines[at::count] for at in range(count)] if draw.random() < 0.5 else cut(draw, lines, count)
    clusters = [draw.choice(("", "c1", "c1", "c1", "c2" if draw.random() < 0.2 else "c1")) for _ in files]
    return [[header_line(name), *it] if name else it for name, it in zip(clusters, files)]


def cut(draw: random.Random, lines: Lines, count: int) -> List[Lines]:
    """Cuts lines into so many files."""
    places = sorted(draw.randint(0, len(lines)) for _ in range(count - 1))
    return [lines[first:last] for first, last in zip([0, *places], [*places, len(lines)])]
