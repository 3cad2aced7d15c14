"""Tests of reading schemas."""
import time
import unittest

from tools.errors import Refused
from tools.schema import read_schema

SIMPLE = "CREATE KEYSPACE ks WITH replication = {'class': 'SimpleStrategy', 'replication_factor': '3'}"


class Schema(unittest.TestCase):
    """DESCRIBE SCHEMA."""

    def test_keyspaces_come_with_their_options(self):
        text = SIMPLE + """ AND durable_writes = true;
            CREATE TABLE ks.t (id int PRIMARY KEY) WITH comment = 'CREATE KEYSPACE no; it''s a text';
            -- CREATE KEYSPACE no;
            /* CREATE KEYSPACE no; */
            CREATE FUNCTION ks.f () RETURNS int LANGUAGE java AS $$ return 1; /* ; */ $$;
            create keyspace IF NOT EXISTS "Big One" with REPLICATION={'class':
              'org.apache.cassandra.locator.NetworkTopologyStrategy','dc1':3, 'dc:2' : '2'};"""
        found = read_schema(text, "s")
        self.assertEqual(
            [(it.name, it.strategy, it.line) for it in found],
            [("ks", "SimpleStrategy", 1), ("Big One", "NetworkTopologyStrategy", 6)],
        )
        self.assertEqual([it.options for it in found], [{"replication_factor": "3"}, {"dc1": "3", "dc:2": "2"}])

    def test_broken_schemas_are_told(self):
        for text, why in (
            ("", "no CREATE KEYSPACE"),
            ("CREATE TABLE t (a int PRIMARY KEY);", "no CREATE KEYSPACE"),
            ("hello;", "s:1: `hello;` begins no statement of a schema; to pass it over: --skip-unknown"),
            ("\nWARNING: cqlsh was built against 5.0\n" + SIMPLE + ";", "s:2: `WARNING: cqlsh was built against 5.0` begins no"),
            ("CREATE TABLE t (a int PRIMARY KEY)\n" + SIMPLE + ";", "s:1: this CREATE TABLE has no semicolon .* line 2"),
            (SIMPLE + ";CREATE THING x;", "s:1: `CREATE THING` makes nothing"),
            (SIMPLE + "; CREATE", "s:1: this CREATE has no semicolon at its end: is the schema cut"),
            (SIMPLE + "; CREATE;", "s:1: `CREATE` makes nothing"),
            ("CREATE FUNCTION f () AS $$ return 1;", "s:1: what begins here with .* doesn't end"),
            (SIMPLE, "s:1: .* no semicolon"),
            (SIMPLE[:-1] + ";", "s:1: .* no closing brace"),
            (SIMPLE.replace("3'", "3") + ";", "s:1: what begins here with '3}; doesn't end"),
            (SIMPLE + ";\n" + SIMPLE + ";", "s:2: the keyspace ks is made in line 1 too"),
            (SIMPLE.replace("'class'", "'x'") + ";", "names no class"),
            (SIMPLE.replace("'replication_factor': '3'", "'replication_factor'") + ";", "'OPTION': 'VALUE'"),
            ("CREATE KEYSPACE ks;", "is to have WITH replication"),
            ("CREATE KEYSPACE;", "followed by a name"),
            ("/* never", "s:1: .*doesn't end"),
        ):
            with self.subTest(text), self.assertRaisesRegex(Refused, why):
                read_schema(text, "s")

    def test_no_keyspace_is_lost_with_what_is_passed_over(self):
        other = SIMPLE.replace("ks", "other")
        text = f"WARNING: it isn't new\n'\n{SIMPLE};\nUSE ks; it isn't\n\n-- a\n{other};CREATE\nTHING x;;"
        skipped = []
        self.assertEqual([(it.name, it.line) for it in read_schema(text, "s", skipped)], [("ks", 3), ("other", 7)])
        passed = {1: "WARNING: it isn't new", 2: "'", 4: "USE ks; it isn't", 7: "CREATE THING .."}
        self.assertEqual(skipped, [f"line {line} is passed over: `{said}`" for line, said in passed.items()])

    def test_long_texts_take_no_longer_than_their_length(self):
        begin = time.process_time()
        read_schema(" " * 300000 + "\n" * 300000 + "/*" + "*" * 300000 + "*/" + "--" * 100000 + "\n" + SIMPLE + ";", "s")
        with self.assertRaises(Refused):
            read_schema(SIMPLE + ";" + "'" * 300001, "s")
        self.assertLess(time.process_time() - begin, 5)


if __name__ == "__main__":
    unittest.main()
