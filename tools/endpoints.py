"""Addresses of nodes as the tools of Cassandra print them: with a slash before them, a port behind them, or in brackets."""
from __future__ import annotations

import re

from tools.names import canonical

BRACKETS = re.compile(r"\[([0-9A-Fa-f:.%]+)\](?::[0-9]{1,5})?")
PORT = re.compile(r"([^:\[\]]+):[0-9]{1,5}")


def endpoint(said: str) -> str:
    """Returns the node that a word names, an address in its shortest form and without its port."""
    word = said.rpartition("/")[2] or said
    found = BRACKETS.fullmatch(word) or PORT.fullmatch(word)
    return canonical(found[1] if found else word)
