"""Names that are near to one that isn't there: for messages that ask whether another one was meant."""
from __future__ import annotations

import difflib
import re
from typing import Dict, Iterable


def plain_of(name: str) -> str:
    """Returns a name without what spellings differ in: case, and signs between words."""
    return re.sub(r"[^0-9a-z]", "", name.casefold())


def is_same_but_spelled(one: str, other: str) -> bool:
    """Returns whether two names differ in spelling at most."""
    return plain_of(one) == plain_of(other)


def nearest(said: str, names: Iterable[str]) -> str:
    """Returns the name that is nearest to one that isn't there, the empty word where none is near."""
    by_plain: Dict[str, str] = {}
    for it in sorted(names):
        by_plain.setdefault(plain_of(it) or it, it)
    found = difflib.get_close_matches(plain_of(said), by_plain, n=1, cutoff=0.7)
    return by_plain[found[0]] if found else ""


def meant(said: str, names: Iterable[str]) -> str:
    """Returns the end of a message about a name that isn't there: which one may be meant, if one is near."""
    near = nearest(said, names)
    if near and is_same_but_spelled(near, said) and near != said:
        return f"; {near} differs from it in spelling only"
    return f"; did you mean {near}?" if near else ""
