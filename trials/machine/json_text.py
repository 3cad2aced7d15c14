"""JSON texts: rule 2 of files, and how the program writes a value."""
from __future__ import annotations

import json
import math
import re
from typing import Any, Dict, List

DEEPEST = 127
SPACE = re.compile(r"[ \t\n\r]*")
NUMBER = re.compile(r"-?(0|[1-9][0-9]*)(\.[0-9]+)?([eE][+-]?[0-9]+)?")
WHOLE = re.compile(r"0|-?[1-9][0-9]*")
PLAIN = re.compile(r'[^"\\\x00-\x1f]*')
ESCAPES = {'"': '"', "\\": "\\", "/": "/", "b": "\b", "f": "\f", "n": "\n", "r": "\r", "t": "\t"}
HEX = re.compile(r"u([0-9a-fA-F]{4})")
LITERALS = {"true": True, "false": False, "null": None}


class NoJson(Exception):
    """A text that isn't JSON, or is beyond what is read."""


class Reader:
    """A text that is read from the front. A whole number is an int, any other number a float."""

    def __init__(self, text: str):
        self.text, self.at = text, 0

    def peek(self) -> str:
        """Passes over white space, and returns the next character, or nothing."""
        space = SPACE.match(self.text, self.at)
        self.at = space.end() if space else self.at
        return self.text[self.at : self.at + 1]

    def take(self, wanted: str) -> None:
        """Takes a character that has to come next."""
        if self.peek() != wanted:
            raise NoJson(f"no {wanted} at {self.at}")
        self.at += 1

    def value(self, depth: int) -> Any:
        """Reads a value within so many lists and objects."""
        found = self.peek()
        if found in ("{", "["):
            if depth >= DEEPEST:
                raise NoJson("nested too deep")
            return self.object(depth + 1) if found == "{" else self.list(depth + 1)
        if found == '"':
            return self.string()
        for word, value in LITERALS.items():
            if self.text.startswith(word, self.at):
                self.at += len(word)
                return value
        return self.number()

    def object(self, depth: int) -> Dict[str, Any]:
        """Reads an object. The last of equal keys counts."""
        self.take("{")
        values: Dict[str, Any] = {}
        while self.peek() != "}":
            if values:
                self.take(",")
                self.peek()
            key = self.string()
            self.take(":")
            values[key] = self.value(depth)
        self.take("}")
        return values

    def list(self, depth: int) -> List[Any]:
        """Reads a list."""
        self.take("[")
        values: List[Any] = []
        while self.peek() != "]":
            if values:
                self.take(",")
            values.append(self.value(depth))
        self.take("]")
        return values

    def number(self) -> Any:
        """Reads a number that isn't too large for a float."""
        found = NUMBER.match(self.text, self.at)
        if found is None:
            raise NoJson(f"no value at {self.at}")
        self.at = found.end()
        if math.isinf(float(found.group())):
            raise NoJson("a number too large")
        return int(found.group()) if WHOLE.fullmatch(found.group()) else float(found.group())

    def string(self) -> str:
        """Reads a string."""
        if self.text[self.at : self.at + 1] != '"':
            raise NoJson(f"no string at {self.at}")
        self.at += 1
        parts: List[str] = []
        while True:
            plain = PLAIN.match(self.text, self.at)
            assert plain is not None
            parts.append(plain.group())
            self.at = plain.end()
            if self.text[self.at : self.at + 1] == '"':
                self.at += 1
                return "".join(parts)
            parts.append(self.escape())

    def escape(self) -> str:
        """Reads what stands for a character behind a backslash."""
        if self.text[self.at : self.at + 1] != "\\":
            raise NoJson(f"a character that no string has at {self.at}")
        letter = self.text[self.at + 1 : self.at + 2]
        if letter in ESCAPES:
            self.at += 2
            return ESCAPES[letter]
        code = self.unit()
        if 0xD800 <= code < 0xDC00:
            low = self.unit()
            if not 0xDC00 <= low < 0xE000:
                raise NoJson("half of a character")
            return chr(0x10000 + ((code - 0xD800) << 10) + (low - 0xDC00))
        if 0xDC00 <= code < 0xE000:
            raise NoJson("half of a character")
        return chr(code)

    def unit(self) -> int:
        """Reads a backslash, `u` and four digits."""
        found = HEX.match(self.text, self.at + 1) if self.text[self.at : self.at + 1] == "\\" else None
        if found is None:
            raise NoJson(f"no escape at {self.at}")
        self.at = found.end()
        return int(found.group(1), 16)


def read(line: bytes) -> Any:
    """Returns the value of a JSON text in UTF-8."""
    try:
        reader = Reader(line.decode("utf-8"))
    except UnicodeDecodeError as why:
        raise NoJson(str(why)) from why
    value = reader.value(0)
    if reader.peek():
        raise NoJson("something behind the value")
    return value


def compact(value: Any) -> bytes:
    """Returns the text of a value: keys in byte order, and no spaces."""
    return json.dumps(value, sort_keys=True, separators=(",", ":")).encode()
