"""Tokens, names and limits, as the language of scripts has them."""
from __future__ import annotations

import re
from typing import Optional, Sequence

LEAST, GREATEST = -(2**63), 2**63 - 1
WHOLE = 2**64  # tokens in the ring

MOST_NODES, MOST_TOKENS, MOST_TOKENS_OF_NODE, MOST_KEYSPACES = 1024, 16384, 256, 64
MOST_DATACENTERS, MOST_RF = 16, 16
MOST_LINE, MOST_NAME, MOST_ENTRIES = 16384, 32, 1024

NAME = re.compile(r"[A-Za-z0-9_.-]{1,32}")
NUMBER = re.compile(r"0|[1-9][0-9]*")
TOKEN = re.compile(r"0|-?[1-9][0-9]*")

STEPS = ("prepare", "start", "mid", "finish")
KINDS = ("join", "move", "leave", "replace")


def is_token(word: str) -> bool:
    """Returns whether a word is a token of the ring."""
    return bool(TOKEN.fullmatch(word)) and len(word) <= 20 and LEAST <= int(word) <= GREATEST


def width(left: Optional[int], right: Optional[int]) -> int:
    """Returns how many tokens a row has; None is `min` at the left and `max` at the right."""
    return (GREATEST if right is None else right) - (LEAST - 1 if left is None else left)


def percent(tokens: int) -> str:
    """Returns a number of tokens as a share of the ring, for example `12.50%`."""
    return f"{100 * tokens / WHOLE:.2f}%"


def row_name(left: Optional[int], right: Optional[int]) -> str:
    """Returns a row as answers show it, for example `(min,0]`."""
    return f"({'min' if left is None else left},{'max' if right is None else right}]"


def plural(count: int, noun: str) -> str:
    """Returns a number with its noun, for example `1 node` or `1,024 nodes`."""
    return f"{count:,} {noun}" + ("" if count == 1 else "s")


def listed(names: Sequence[object]) -> str:
    """Returns names as a list in a sentence, `-` where there are none."""
    return ", ".join(str(it) for it in names) or "-"
