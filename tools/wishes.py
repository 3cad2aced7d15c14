"""Reads a file of wishes: movements by the names of nodes, and which nodes are down."""
from __future__ import annotations

import hashlib
import re
from dataclasses import dataclass, replace
from typing import Callable, Container, Dict, List, Optional, Sequence, Tuple

from tools.errors import Refused
from tools.names import canonical
from tools.seen import Seen
from tools.terms import LEAST, MOST_TOKENS_OF_NODE, WHOLE, is_token
from tools.text import fault

FORMS = """  join NAME DC RACK 16 tokens     (or the tokens themselves in the place of `16 tokens`)
  replace NEW for OLD
  leave NAME
  move NAME TOKEN
  down NAME                       (a node that is dead; those that the import saw Down need no line)
  up NAME                         (a node that the import saw Down and that is up by now)
  join NAME                       (a node that was to join at the import, with the tokens that it had then)"""


@dataclass(frozen=True)
class Wish:
    """A wish: `name` is the node of the movement, `gone` the node that is replaced."""

    line: int
    kind: str
    name: str
    dc: str = ""
    rack: str = ""
    gone: str = ""
    tokens: Tuple[int, ...] = ()
    draws: int = 0

    @property
    def said(self) -> str:
        """The wish as the reader wrote it, but for tokens."""
        return f"{self.kind} {self.name}" + (f" for {self.gone}" if self.gone else "")

    @property
    def leaving(self) -> str:
        """The node that goes, if one does."""
        return self.gone or (self.name if self.kind == "leave" else "")


def read_wishes(lines: List[str], path: str) -> Tuple[List[Wish], List[str], List[str]]:
    """Returns the wishes of a file, the nodes that are down, and those that are up by now."""
    wishes: List[Wish] = []
    told: Dict[str, List[str]] = {"down": [], "up": []}
    for number, line in enumerate(lines, 1):
        words = line.split("#")[0].split()
        if not words:
            continue
        if words[0] in told and len(words) == 2:
            told[words[0]].append(canonical(words[1]))
            continue
        wish = read_wish(number, [canonical(it) for it in words], path)
        if any(it.name == wish.name for it in wishes):
            raise fault(path, number, f"{wish.name} has a wish already")
        wishes.append(wish)
    if not wishes:
        raise Refused(f"{path}: no wish is there; a wish is one of\n{FORMS}")
    return wishes, told["down"], told["up"]


def read_wish(number: int, words: List[str], path: str) -> Wish:
    """Returns the wish in a line."""
    kind, count = words[0], len(words)
    if kind == "join" and count >= 5:
        tokens, draws = read_tokens(number, words[4:], path)
        return Wish(number, kind, words[1], words[2], words[3], tokens=tokens, draws=draws)
    if kind == "join" and count == 2:
        return Wish(number, kind, words[1])
    if kind == "replace" and count == 4 and words[2] == "for":
        return Wish(number, kind, words[1], gone=words[3])
    if kind == "leave" and count == 2:
        return Wish(number, kind, words[1])
    if kind == "move" and count == 3:
        return Wish(number, kind, words[1], tokens=read_tokens(number, words[2:], path)[0])
    raise fault(path, number, f"`{' '.join(words)[:60]}` is no wish; a wish is one of\n{FORMS}")


def read_tokens(number: int, words: List[str], path: str) -> Tuple[Tuple[int, ...], int]:
    """Returns tokens, or how many are to be drawn."""
    if len(words) == 2 and words[1] in ("token", "tokens") and re.fullmatch(r"[1-9]\d{0,2}", words[0]):
        if int(words[0]) > MOST_TOKENS_OF_NODE:
            raise fault(path, number, f"a node has at most {MOST_TOKENS_OF_NODE} tokens")
        return (), int(words[0])
    wrong = next((it for it in words if not is_token(it)), None)
    if wrong is not None:
        raise fault(path, number, f"`{wrong[:40]}` is no token; `16 tokens` asks for tokens to be drawn")
    if len(words) > MOST_TOKENS_OF_NODE:
        raise fault(path, number, f"these are {len(words)} tokens, and a node has at most {MOST_TOKENS_OF_NODE}")
    if len(set(words)) < len(words):
        raise fault(path, number, "a token comes a second time")
    return tuple(sorted(int(it) for it in words)), 0


def draw_tokens(name: str, count: int, seed: int, taken: Container[int]) -> List[int]:
    """Returns tokens that part the ring evenly.

    The first is made of the first 8 bytes of the SHA-256 of `SEED NAME`, and each further one stands 2^64 / count after
    the one before it. A token that is taken gives way to the next that isn't.
    """
    first = int.from_bytes(hashlib.sha256(f"{seed} {name}".encode()).digest()[:8], "big")
    tokens: List[int] = []
    for i in range(count):
        token = LEAST + (first + i * WHOLE // count) % WHOLE
        while token in taken or token in tokens:
            token = LEAST + (token + 1 - LEAST) % WHOLE
        tokens.append(token)
    return sorted(tokens)


def with_seen(wishes: Sequence[Wish], seen: Seen, path: str) -> List[Wish]:
    """Returns wishes with the addresses of machines that they name, and the tokens that nodes had at the import."""
    found = []
    for it in wishes:
        wish = replace(it, name=seen.node(it.name), gone=seen.node(it.gone))
        if wish.kind == "join" and not wish.dc:
            if wish.name not in seen.tokens:
                raise fault(path, wish.line, f"the import saw no tokens of {it.name}: join {it.name} DC RACK 16 tokens")
            wish = replace(wish, tokens=tuple(sorted(seen.tokens[wish.name])))
        found.append(wish)
    return found


def dead_first(wishes: List[Wish], down: List[str], here: Callable[[str], str] = str) -> List[Wish]:
    """Returns wishes in the order in which they are tried: first those by which a node goes that is down.

    `here` returns the name in the log for the name of a node.
    """
    dead = {here(it) for it in down}
    return sorted(wishes, key=lambda it: not it.leaving or here(it.leaving) not in dead)


def chosen(wish: Wish, tokens: List[int]) -> Wish:
    """Returns a join with the tokens that were drawn for it."""
    return Wish(wish.line, wish.kind, wish.name, wish.dc, wish.rack, wish.gone, tuple(tokens), wish.draws)


def command_of(wish: Wish, node: Optional[object] = None, gone: Optional[object] = None) -> str:
    """Returns the command that prepares a wish, with ids or names of its nodes."""
    words = [f"prepare-{wish.kind}", str(node or wish.name)]
    words += [str(gone or wish.gone)] if wish.gone else [str(it) for it in wish.tokens]
    return " ".join(words)
