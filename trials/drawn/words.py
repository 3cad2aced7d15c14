"""Words of commands, drawn so that each is asked for what is there and what isn't."""
from __future__ import annotations

import random
from typing import List, Sequence

from trials.machine.image import Image

Words = List[bytes]
NUMBERS = ("0", "1", "01", "-1", "x", "", "18446744073709551615", "18446744073709551616", "4294967296", "3000", "3001")


def members(draw: random.Random, image: Image) -> str:
    """Draws a list of members."""
    there = [it.id for it in image.nodes if image.state_of(it) == "JOINED"]
    ids = draw.sample(there, draw.randint(1, len(there))) if there and draw.random() < 0.85 else []
    if not ids or draw.random() < 0.15:
        ids.append(draw.randint(1, image.next + 1))
    listed = sorted(set(ids))[:16]
    if draw.random() < 0.03:
        wrong: Sequence[List[int]] = (listed[::-1] * 2, [], [*listed, 2**32], list(range(1, 18)), list(range(1, 17)))
        listed = draw.choice(wrong)
    return ",".join(map(str, listed))


def questions(draw: random.Random, image: Image, log: bytes) -> List[Words]:
    """Draws questions about a log that leads to an image."""
    names = [it.name for it in image.keyspaces] + ["none"] * (draw.random() < 0.2)
    moving = [it.node for it in image.movements] or [1]
    node = draw.choice(moving) if draw.random() < 0.9 else draw.randint(0, image.next)
    asked = [
        [b"snapshot", log, str(draw.randint(0, image.epoch + 1)).encode()],
        [b"plan", log, str(node).encode(), draw.choice(names or ["ks"]).encode()],
        [b"cms", log, members(draw, image).encode(), members(draw, image).encode()],
        [b"replay", log, *([log] * (draw.random() < 0.1))],
    ]
    return draw.sample(asked, draw.randint(1, 4))


def wrong_words(draw: random.Random) -> Words:
    """Draws words of which few are a command."""
    log = draw.choice(("log", "absent", ""))
    number = draw.choice(NUMBERS)
    forms: Sequence[Sequence[str]] = (
        ("commit", log),
        ("commit", log, draw.choice(("c1", "c 1", "c" * 33, ""))),
        ("replay", *[log] * draw.choice((0, 1, 2, 64, 65))),
        ("snapshot", log, number),
        ("plan", log, number, draw.choice(("ks", "k s", ""))),
        ("cms", log, draw.choice(("1", "1,2", "2,1", "1,,2", "", "01", "4294967295", "4294967296")), "1,2"),
        ("mend2", log, draw.choice(("new", "", "absent")), draw.choice(("c1", "é"))),
        ("gen", number, draw.choice(("0", "1", "01", "3001", "-1", ""))),
        ("other",),
        ("Commit",),
        (),
    )
    words = list(draw.choice(forms))
    if draw.random() < 0.1:
        words.append("more")
    if draw.random() < 0.2:
        words = draw.choice((["on", "disk"], ["on", ""], ["on"])) + words
    return [it.encode() for it in words]
