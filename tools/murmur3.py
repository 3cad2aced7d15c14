"""Tokens of Murmur3Partitioner: the first half of MurmurHash3 x64 128 with seed 0, as Cassandra computes it.

Cassandra takes the bytes of the tail as signed numbers (`MurmurHash.hash3_x64_128`), which the published hash doesn't.
"""
from __future__ import annotations

import struct
from typing import Tuple

from tools.terms import GREATEST, LEAST

MASK = 2**64 - 1
C1, C2 = 0x87C37B91114253D5, 0x4CF5AD432745937F


def token_of(key: bytes) -> int:
    """Returns the token of a serialized partition key; the least one, which no key has, becomes the greatest."""
    token = hash_of(key)
    return GREATEST if token == LEAST else token


def hash_of(key: bytes) -> int:
    """Returns the first 64 bits of the hash, as a signed number."""
    first, second = body(key)
    low, high = tail(key[len(key) // 16 * 16 :])
    first, second = first ^ mixed(low, 31, C1, C2) ^ len(key), second ^ mixed(high, 33, C2, C1) ^ len(key)
    first = (first + second) & MASK
    second = (second + first) & MASK
    return signed((finished(first) + finished(second)) & MASK)


def body(key: bytes) -> Tuple[int, int]:
    """Returns both halves of the hash after the whole blocks of 16 bytes."""
    first = second = 0
    for low, high in struct.iter_unpack("<QQ", key[: len(key) // 16 * 16]):
        first = (rotated(first ^ mixed(low, 31, C1, C2), 27) + second) & MASK
        first = (first * 5 + 0x52DCE729) & MASK
        second = (rotated(second ^ mixed(high, 33, C2, C1), 31) + first) & MASK
        second = (second * 5 + 0x38495AB5) & MASK
    return first, second


def tail(rest: bytes) -> Tuple[int, int]:
    """Returns what is left after the blocks as two numbers, their bytes taken as signed ones."""
    return signed_bytes(rest[:8]), signed_bytes(rest[8:])


def signed_bytes(part: bytes) -> int:
    """Returns up to 8 bytes, the least first, each extended by its sign and combined by exclusive or."""
    found = 0
    for i, byte in enumerate(part):
        found ^= (byte - 256 if byte > 127 else byte) << (8 * i)
    return found & MASK


def mixed(half: int, turn: int, before: int, after: int) -> int:
    """Returns half a block, mixed."""
    return (rotated((half * before) & MASK, turn) * after) & MASK


def finished(half: int) -> int:
    """Returns half the hash after the last mixing."""
    half = ((half ^ (half >> 33)) * 0xFF51AFD7ED558CCD) & MASK
    half = ((half ^ (half >> 33)) * 0xC4CEB9FE1A85EC53) & MASK
    return half ^ (half >> 33)


def rotated(number: int, by: int) -> int:
    """Returns 64 bits, rotated to the left."""
    return ((number << by) | (number >> (64 - by))) & MASK


def signed(number: int) -> int:
    """Returns 64 bits as a signed number."""
    return number - 2**64 if number >= 2**63 else number
