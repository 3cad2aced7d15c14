"""Members of the metadata service: a route from some members to others."""
from __future__ import annotations

from typing import List, Optional, Sequence, Tuple

from trials.machine.image import Image
from trials.machine.terms import MOST_MEMBERS, NODES, list_text, number_of


def members_of(word: str) -> Optional[Tuple[int, ...]]:
    """Returns the members that a word lists: 1 to 16 different node ids that ascend."""
    parts = word.split(",")
    ids = [it for it in (number_of(part, NODES) for part in parts) if it is not None]
    if len(ids) != len(parts) or len(ids) > MOST_MEMBERS or ids != sorted(set(ids)):
        return None
    return tuple(ids)


def route(old: Sequence[int], new: Sequence[int]) -> List[str]:
    """Returns the changes that lead from some members to others, with the majority after each."""
    voting, lines = sorted(old), []
    changes = [(word, it) for it in new if it not in old for word in ("START", "FINISH")]
    for word, it in [*changes, *(("REMOVE", it) for it in old if it not in new)]:
        if word == "FINISH":
            voting = sorted([*voting, it])
        elif word == "REMOVE":
            voting.remove(it)
        lines.append(f"{word} {it} needs {len(voting) // 2 + 1} of {list_text(voting)}")
    return lines


def member_refusal(image: Image, old: Sequence[int], new: Sequence[int]) -> Optional[str]:
    """Refuses the least node that would join and isn't JOINED."""
    for it in new:
        node = image.node(it)
        if it not in old and node is None:
            return f"NO NO-NODE {it}"
        if it not in old and node is not None and image.state_of(node) != "JOINED":
            return f"NO NODE-STATE {it} {image.state_of(node)}"
    return None
