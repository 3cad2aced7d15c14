"""Partition keys as Cassandra serializes them: a value by its CQL type, and several values as one composite key."""
from __future__ import annotations

import datetime
import ipaddress
import re
import struct
import uuid
from typing import Callable, Dict, List, Sequence

from tools.errors import Refused

MOST_BYTES = 65535  # of a key, and of each part of a composite one

Serializer = Callable[[str], bytes]


def serialized(types: Sequence[str], texts: Sequence[str]) -> bytes:
    """Returns the serialized partition key of some values, each written as CQL shows it."""
    parts = [value_bytes(kind, text) for kind, text in zip(types, texts)]
    if len(parts) == 1:
        return parts[0]
    key = b"".join(struct.pack(">H", len(it)) + it + b"\0" for it in parts)
    if len(key) > MOST_BYTES:
        raise Refused(f"the key has {len(key):,} bytes, and Cassandra takes at most {MOST_BYTES:,}")
    return key


def value_bytes(kind: str, text: str) -> bytes:
    """Returns the bytes of a value."""
    try:
        found = TYPES[kind](text)
    except (ValueError, struct.error, OverflowError) as why:
        raise Refused(f"`{text[:60]}` is no {kind}: {FORMS[kind]}") from why
    if not found:
        raise Refused("Cassandra takes no empty partition key")
    if len(found) > MOST_BYTES:
        raise Refused(f"the value has {len(found):,} bytes, and Cassandra takes at most {MOST_BYTES:,}")
    return found


def whole(size: int) -> Serializer:
    """Returns what serializes whole numbers of some bytes."""
    return lambda text: number_in(text).to_bytes(size, "big", signed=True)


def number_in(text: str) -> int:
    """Returns the number that a text writes in decimal digits."""
    if not re.fullmatch(r"[+-]?[0-9]{1,5000}", text):
        raise ValueError(text[:60])
    number = 0
    for digit in text.lstrip("+-"):  # (int() refuses long texts, and the limit differs by version)
        number = number * 10 + ord(digit) - ord("0")
    return -number if text.startswith("-") else number


def varint_bytes(text: str) -> bytes:
    """Returns a whole number in as few bytes as hold it."""
    number = number_in(text)
    return number.to_bytes((number + (number < 0)).bit_length() // 8 + 1, "big", signed=True)


def text_bytes(text: str) -> bytes:
    """Returns a text in UTF-8; bytes of the command line that are no UTF-8 stay as they are."""
    return text.encode("utf-8", "surrogateescape")


def blob_bytes(text: str) -> bytes:
    """Returns the bytes that `0x..` writes."""
    if not re.fullmatch(r"0[xX](?:[0-9a-fA-F]{2})*", text):
        raise ValueError(text[:60])
    return bytes.fromhex(text[2:])


def boolean_bytes(text: str) -> bytes:
    """Returns a truth value."""
    return {"true": b"\1", "false": b"\0"}[text.lower()] if text.lower() in ("true", "false") else b""


def uuid_bytes(text: str) -> bytes:
    """Returns a UUID in its usual spelling."""
    if not re.fullmatch(r"[0-9a-fA-F]{8}(?:-[0-9a-fA-F]{4}){3}-[0-9a-fA-F]{12}", text):
        raise ValueError(text[:60])
    return uuid.UUID(text).bytes


def timeuuid_bytes(text: str) -> bytes:
    """Returns a UUID of version 1."""
    found = uuid_bytes(text)
    if found[6] >> 4 != 1:
        raise ValueError(text[:60])
    return found


def date_bytes(text: str) -> bytes:
    """Returns a day as its number, the first of 1970 being 2^31."""
    day = datetime.datetime.strptime(text, "%Y-%m-%d").date()
    return struct.pack(">I", (day - datetime.date(1970, 1, 1)).days + 2**31)


TYPES: Dict[str, Serializer] = {
    "text": text_bytes,
    "varchar": text_bytes,
    "ascii": lambda text: text.encode("ascii"),
    "int": whole(4),
    "bigint": whole(8),
    "smallint": whole(2),
    "tinyint": whole(1),
    "timestamp": whole(8),
    "varint": varint_bytes,
    "boolean": boolean_bytes,
    "uuid": uuid_bytes,
    "timeuuid": timeuuid_bytes,
    "blob": blob_bytes,
    "inet": lambda text: ipaddress.ip_address(text).packed,
    "date": date_bytes,
}
FORMS: Dict[str, str] = {
    "text": "any text",
    "varchar": "any text",
    "ascii": "a text of ASCII alone",
    "int": "a whole number of 4 bytes",
    "bigint": "a whole number of 8 bytes",
    "smallint": "a whole number of 2 bytes",
    "tinyint": "a whole number of 1 byte",
    "timestamp": "a whole number of milliseconds since 1970",
    "varint": "a whole number of at most 5,000 digits",
    "boolean": "true or false",
    "uuid": "as 123e4567-e89b-12d3-a456-426614174000",
    "timeuuid": "a UUID of version 1",
    "blob": "0x and an even number of hexadecimal digits",
    "inet": "an address as 10.0.0.1 or ::1",
    "date": "a day as 2024-02-29",
}


def types_for(said: List[str], count: int) -> List[str]:
    """Returns a type for each of some values: those that were said, or one for all of them."""
    kinds = [it for word in said for it in word.split(",")] or ["text"]
    unknown = next((it for it in kinds if it not in TYPES), None)
    if unknown is not None:
        raise Refused(f"`{unknown[:60]}` is none of the types: {', '.join(TYPES)}")
    if len(kinds) not in (1, count):
        raise Refused(f"{len(kinds)} types were given for a key of {count} values")
    return kinds * count if len(kinds) == 1 else kinds
