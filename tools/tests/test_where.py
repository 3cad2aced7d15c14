"""Tests of tokens, of serialized keys, and of the verb `where`."""
from __future__ import annotations

import json
import os
import random
import subprocess
import unittest
from typing import List

from tools.errors import Refused
from tools.keys import serialized, types_for
from tools.murmur3 import hash_of, token_of
from tools.terms import GREATEST, LEAST
from tools.tests.cluster import YES, InTutorial, cluster, needs_program

DRIVER = """
import sys
from cassandra.metadata import Murmur3Token
for line in sys.stdin:
    print(Murmur3Token.hash_fn(bytes.fromhex(line.strip())))
"""
VALUES = """
import sys
from cassandra import cqltypes
NAMES = {"int": "Int32Type", "bigint": "LongType", "smallint": "ShortType", "varint": "IntegerType",
         "text": "UTF8Type", "blob": "BytesType"}
for line in sys.stdin:
    kind, text = line.rstrip("\\n").split("\\t")
    value = text if kind == "text" else bytes.fromhex(text[2:]) if kind == "blob" else int(text)
    print(cqltypes.lookup_casstype(NAMES[kind]).serialize(value, 4).hex())
"""
PYTHON = "/usr/bin/python3"


def says(script: str, lines: List[str]) -> List[str]:
    """Runs a script of the system's Python over lines."""
    ended = subprocess.run([PYTHON, "-c", script], input="\n".join(lines), stdout=subprocess.PIPE, text=True, check=True)
    return ended.stdout.split()


def has_driver() -> bool:
    """Returns whether the driver for Python is installed."""
    if not os.path.exists(PYTHON):
        return False
    found = subprocess.run([PYTHON, "-c", "import cassandra.metadata"], stderr=subprocess.DEVNULL, check=False)
    return found.returncode == 0


needs_driver = unittest.skipUnless(has_driver(), "the driver of Cassandra for Python isn't installed")


class Tokens(unittest.TestCase):
    """Tokens of Murmur3Partitioner."""

    def test_known_tokens(self) -> None:
        self.assertEqual(hash_of(b"123"), -7468325962851647638)
        self.assertEqual(hash_of(b"\x00\xff\x10\xfa\x99" * 10), 5837342703291459765)
        self.assertEqual(hash_of(b"\xfe" * 8), -8927430733708461935)
        self.assertEqual(hash_of(b"\x10" * 8), 1446172840243228796)
        self.assertEqual(hash_of(b"9223372036854775807"), 7162290910810015547)

    @needs_driver
    def test_the_driver_hashes_alike(self) -> None:
        draw = random.Random(7)
        keys = [bytes(draw.randrange(256) for _ in range(draw.randrange(1, 70))) for _ in range(20_000)]
        said = says(DRIVER, [it.hex() for it in keys])
        self.assertEqual([hash_of(it) for it in keys], [int(it) for it in said])

    def test_no_key_has_the_least_token(self) -> None:
        self.assertEqual(max(LEAST, token_of(b"a")), token_of(b"a"))
        self.assertLessEqual(token_of(b"a"), GREATEST)


class Keys(unittest.TestCase):
    """Serialized keys."""

    def test_values_by_type(self) -> None:
        rows = [
            ("text", "é", "c3a9"),
            ("int", "-2", "fffffffe"),
            ("bigint", "1", "0000000000000001"),
            ("varint", "128", "0080"),
            ("varint", "-128", "80"),
            ("varint", "0", "00"),
            ("blob", "0x00ff", "00ff"),
            ("boolean", "true", "01"),
            ("inet", "::1", "00000000000000000000000000000001"),
            ("date", "1970-01-02", "80000001"),
            ("uuid", "123e4567-e89b-12d3-a456-426614174000", "123e4567e89b12d3a456426614174000"),
        ]
        for kind, text, want in rows:
            self.assertEqual(serialized([kind], [text]).hex(), want, (kind, text))

    def test_a_composite_key_has_lengths(self) -> None:
        self.assertEqual(serialized(["text", "int"], ["ab", "7"]).hex(), "0002616200" + "00040000000700")

    def test_what_is_no_value_is_refused(self) -> None:
        for kind, text in (
            ("int", "2147483648"),
            ("int", "a"),
            ("blob", "0x0"),
            ("blob", "00"),
            ("uuid", "123e4567"),
            ("timeuuid", "123e4567-e89b-42d3-a456-426614174000"),
            ("boolean", "1"),
            ("text", ""),
            ("ascii", "é"),
            ("date", "2024-02-30"),
            ("inet", "10.0.0.256"),
            ("varint", "1" * 5001),
        ):
            with self.assertRaises(Refused, msg=(kind, text)):
                serialized([kind], [text])

    def test_types_are_one_for_all_or_one_for_each(self) -> None:
        self.assertEqual(types_for([], 2), ["text", "text"])
        self.assertEqual(types_for(["int,text"], 2), ["int", "text"])
        self.assertEqual(types_for(["int", "text"], 2), ["int", "text"])
        for said, count in ((["int,text"], 3), (["counter"], 1)):
            with self.assertRaises(Refused):
                types_for(said, count)

    @needs_driver
    def test_the_driver_serializes_alike(self) -> None:
        draw, rows = random.Random(11), []
        for _ in range(2000):
            size = draw.choice((1, 7, 8, 15, 16, 31, 32, 63, 64, 200))
            rows.append(("varint", str(draw.randrange(-(2**size), 2**size))))
            rows.append(("int", str(draw.randrange(-(2**31), 2**31))))
            rows.append(("bigint", str(draw.randrange(-(2**63), 2**63))))
            rows.append(("smallint", str(draw.randrange(-(2**15), 2**15))))
            rows.append(("text", "".join(chr(draw.choice((97, 233, 8364, 66304))) for _ in range(draw.randrange(1, 9)))))
            rows.append(("blob", "0x" + bytes(draw.randrange(256) for _ in range(draw.randrange(1, 9))).hex()))
        said = says(VALUES, [f"{kind}\t{text}" for kind, text in rows])
        self.assertEqual([serialized([kind], [text]).hex() for kind, text in rows], said)


@needs_program
class Where(InTutorial):
    """where."""

    def test_a_key_has_the_replicas_of_its_row(self) -> None:
        for key in range(40):
            status, out, _ = cluster("where", "shop.log", "shop", str(key), "--type", "int", "--json")
            self.assertEqual(status, 0)
            said = json.loads(out)
            token = int(said["token"])
            answer = self.ask(f"place @10 shop\nquorum @10 shop {token}\nlocal @10 shop dc1 {token}\nnodes @10\n")
            row = next(it for it in answer[1:] if f"{said['range']} read" in it)
            ids = {it.split()[0]: it.split()[1] for it in answer if it.split()[0].isdigit()}
            self.assertEqual([ids[it] for it in row.split()[2].split(",")], said["read"])
            left, right = (it.strip("(]") for it in said["range"].split(","))
            self.assertTrue((left == "min" or int(left) < token) and (right == "max" or token <= int(right)))
            quorum = next(it for it in answer if it.startswith("QUORUM ")).split()
            self.assertEqual(int(quorum[3]), said["levels"]["QUORUM"]["reads"]["need"])
            self.assertEqual([ids[it] for it in quorum[5].split(",")], said["levels"]["QUORUM"]["reads"]["of"])
            self.assertEqual(len(said["levels"]), 2)

    def test_a_pending_node_is_written_only(self) -> None:
        self.write("join.script", "register n dc1 rack2\nprepare-join n 5\nstart-join n\n")
        cluster("apply", "shop.log", "join.script", *YES)
        found = [cluster("where", "shop.log", "shop", str(it))[1] for it in range(30)]
        self.assertTrue(any("written only (pending)" in it for it in found))
        before = cluster("where", "shop.log", "shop", "0", "--epoch", "@10")
        self.assertNotIn("pending", before[1])

    def test_what_is_not_there_is_refused(self) -> None:
        self.assertEqual(cluster("where", "shop.log", "nowhere", "1")[0], 1)
        self.assertEqual(cluster("where", "shop.log", "shop", "a", "--type", "int")[0], 1)
        self.assertEqual(cluster("where", "shop.log", "shop", "a", "--epoch", "12")[0], 2)
