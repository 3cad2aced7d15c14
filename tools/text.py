"""Reads and writes files of text, and says where something stands in one."""
from __future__ import annotations

import os
import sys
from typing import List

from tools.errors import Refused
from tools.files import write_whole

MOST_BYTES = 2**28  # of a file that is read
MOST_SHOWN = 60  # characters of an input that a message shows


def read_bytes(path: str) -> bytes:
    """Returns the bytes of a file; `-` is standard input."""
    try:
        if path == "-":
            data = sys.stdin.buffer.read(MOST_BYTES + 1)
        else:
            with open(path, "rb") as it:
                data = it.read(MOST_BYTES + 1)
    except OSError as why:
        raise Refused(f"{name_of(path)}: {why.strerror}") from why
    if len(data) > MOST_BYTES:
        raise Refused(f"{name_of(path)}: more than {MOST_BYTES:,} bytes, and no input is so long")
    return data


def read_text(path: str) -> str:
    """Returns the text of a file."""
    data = read_bytes(path)
    try:
        return data.decode("utf-8-sig")
    except UnicodeDecodeError as why:
        line = data[: why.start].count(b"\n") + 1
        raise Refused(f"{name_of(path)}:{line}: this is no text in UTF-8") from why


def read_lines(path: str) -> List[str]:
    """Returns the lines of a file, without what ends them."""
    return [it.rstrip("\r") for it in read_text(path).split("\n")]


def script_lines(path: str) -> List[str]:
    """Returns the lines of a script, whatever bytes they have, as the program counts them."""
    lines = read_bytes(path).decode("utf-8", "surrogateescape").split("\n")
    return lines if lines[-1] else lines[:-1]


def write_text(path: str, text: str) -> None:
    """Writes a file at once: a reader finds the old text or the new one."""
    write_whole(path, text.encode("utf-8", "surrogateescape"))


def name_of(path: str) -> str:
    """Returns what messages call a file."""
    return "standard input" if path == "-" else path


def shown(said: str, most: int = MOST_SHOWN) -> str:
    """Returns a text of an input as a message can show it: shortened, and without control characters."""
    printable = "".join(it if it.isprintable() else f"\\x{ord(it):02x}" for it in said[: most + 1])
    return printable if len(printable) <= most else printable[:most] + ".."


def fault(path: str, line: int, why: str) -> Refused:
    """Returns what is wrong in a line of a file."""
    return Refused(f"{name_of(path)}:{line}: {why}")
