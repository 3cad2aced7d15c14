"""The kind `power`: runs on a disk that lose their power, by all that strace saw them write and sync."""
from __future__ import annotations

import random
from typing import List, Sequence

from trials import strace
from trials.accepted import DISK, LOG, Script, drawn_script, file_of, goes_on, lost_or_changed, words_for
from trials.kind import Case, Kind
from trials.strace import Act, Printed, Sync, Write, traced

MOST_CUTS = 3


def one_case(case: Case) -> str:
    """Takes the power from runs of one script up to three times, and lets the last one end."""
    script = drawn_script(case, case.random.randint(3, 30))
    case.write("lines.script", script.lines)
    for _ in range(case.random.randint(1, MOST_CUTS)):
        wrong = cut_once(case, script)
        if wrong:
            return wrong
    return goes_on(case, script, on_disk=True)


def cut_once(case: Case, script: Script) -> str:
    """Runs the script over the disk, takes the power at a random moment, and returns what is wrong then."""
    before = image_now(case)
    ended, acts = traced(case, words_for(True), script.lines, DISK)
    early = printed_early(acts)
    if early or ended.status != 0:
        return early or f"the run ends with status {ended.status}"
    moment = case.random.randrange(len(acts) + 1)
    image = left_after(before, acts[:moment], case.random)
    case.write(DISK, image)
    case.count += 1
    printed = b"".join(it.data for it in acts[:moment] if isinstance(it, Printed))
    case.cover("answers printed" if printed else "nothing printed", *(type(it).__name__ for it in acts[:moment][-1:]))
    return lost_or_changed(script, printed, file_of(image, LOG.encode()))


def image_now(case: Case) -> bytes:
    """Returns the bytes of the disk now, none if it is absent."""
    try:
        return case.read(DISK)
    except FileNotFoundError:
        return b""


def printed_early(acts: Sequence[Act]) -> str:
    """Returns which answer was printed while something that was written wasn't synced."""
    unsynced = False
    for act in acts:
        if isinstance(act, Printed) and unsynced:
            return f"{act.data[:80]!r} was printed before the disk was synced"
        unsynced = isinstance(act, Write) or (unsynced and not isinstance(act, Sync))
    return ""


def left_after(before: bytes, acts: Sequence[Act], draw: random.Random) -> bytes:
    """Returns what a loss of power may leave: all that was synced, and of each later write some part."""
    last = max((i for i, it in enumerate(acts) if isinstance(it, Sync)), default=-1)
    image = bytearray(before)
    for i, act in enumerate(acts):
        if isinstance(act, Write):
            put(image, act if i < last else torn(act, draw))
    return bytes(image)


def put(image: bytearray, it: Write) -> None:
    """Puts what was written into an image; what lies before it and was never written is zeros."""
    if it.data:
        image.extend(bytes(max(0, it.place + len(it.data) - len(image))))
        image[it.place : it.place + len(it.data)] = it.data


def torn(it: Write, draw: random.Random) -> Write:
    """Returns what is left of a write that wasn't synced: none, all, a front, a back, or zeros."""
    size = draw.randint(0, len(it.data))
    ways: List[Write] = [
        Write(it.place, b""),
        it,
        Write(it.place, it.data[:size]),
        Write(it.place + size, it.data[size:]),
        Write(it.place, bytes(len(it.data))),
    ]
    return draw.choice(ways)


KIND = Kind(
    "power",
    "runs on a disk that lose their power at a random moment, and the same lines sent again",
    "cuts",
    one_case,
    frozenset({"answers printed", "Write", "Sync", "Printed"}),
    300,
    strace.missing,
)
