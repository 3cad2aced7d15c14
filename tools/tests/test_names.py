"""Tests of names that are mapped."""
import json
import os
import random
import shutil
import tempfile
import unittest

from tools.errors import Refused
from tools.names import Names, canonical, names_of, path_of
from tools.terms import NAME

HEADER = '{"cluster":"one","format":2}'
LONG = "a_keyspace_with_a_name_of_more_than_32_letters"


class Mapping(unittest.TestCase):
    """Names."""

    def test_names_that_fit_stay(self):
        names = Names()
        self.assertEqual([names.take("node", it) for it in ("10.0.0.1", "a-b_c.D")], ["10.0.0.1", "a-b_c.D"])
        self.assertEqual(names.differing(), [])

    def test_each_name_becomes_another(self):
        names = Names()
        said = ["2001:db8:0:1:0:0:0:7", "2001-db8-0-1--7", "10.0.0.1:7000", "node é", LONG, LONG + "s", "2001:db8::"]
        taken = [names.take("node", it) for it in said]
        self.assertEqual(len(set(taken)), len(said))
        self.assertTrue(all(NAME.fullmatch(it) for it in taken))
        self.assertEqual([names.take("node", it) for it in said], taken)
        self.assertEqual(names.here("node", "2001:db8:0:1::7"), taken[0])
        self.assertEqual(names.there("node", taken[4]), LONG)

    def test_names_of_the_log_may_be_said_too(self):
        names = Names()
        first = names.take("datacenter", "DC 1")
        self.assertRegex(first, "^DC-1-[0-9a-f]{4}$")
        self.assertEqual([names.choose("datacenter", it) for it in ("DC 1", first, "DC-1")], [first, first, "DC-1"])
        self.assertEqual([names.word("datacenter", it) for it in (first, "DC-1", "other")], [first, "DC-1", "other"])
        self.assertEqual(names.differing(), [("datacenter", first, "DC 1")])

    def test_a_new_name_never_lands_in_an_old_one(self):
        names = Names()
        for kind, here in (("datacenter", "us-east"), ("keyspace", "my-ks"), ("node", "a-b")):
            names.add_seen(kind, here)
            other = names.choose(kind, here.replace("-", "/"))
            self.assertTrue(other.startswith(f"{here}-"))
            self.assertEqual([names.there(kind, it) for it in (here, other)], [here, here.replace("-", "/")])
            self.assertEqual(names.word(kind, other), here.replace("-", "/"))
        for said, wanted in (("/10.0.0.4", "10.0.0.4"), ("2001:db8::0:7", "2001-db8--7"), ("2001-db8--7", "2001-db8--7")):
            self.assertEqual(names.choose("node", said), wanted)

    def test_a_word_that_may_be_two_is_refused_with_both(self):
        names = Names()
        names.add("datacenter", "my-dc", "my dc")
        with self.assertRaisesRegex(Refused, "datacenter my-dc may be my dc, .* or a new one"):
            names.choose("datacenter", "my-dc")
        names.add("datacenter", "other", "my-dc")
        for find in (names.here, names.choose):
            with self.assertRaisesRegex(Refused, r"my-dc \(in the log other\) or my dc \(in the log my-dc\)"):
                find("datacenter", "my-dc")
        self.assertEqual([names.here("datacenter", it) for it in ("my dc", "other", "new")], ["my-dc", "other", "new"])
        names.add_seen("datacenter", "my dc")
        self.assertEqual(names.word("datacenter", "other"), "other")

    def test_many_long_names_find_room(self):
        names = Names()
        draw = random.Random(1)
        ends = ((draw.getrandbits(16), draw.getrandbits(16)) for _ in range(2000))
        said = [f"2001:db8:1234:5678:9abc:def0:{a:x}:{b:x}" for a, b in ends]
        taken = {names.take("node", it) for it in said}
        self.assertEqual(len(taken), len({canonical(it) for it in said}))
        self.assertTrue(all(NAME.fullmatch(it) for it in taken))
        self.assertTrue(any(len(it.rpartition("-")[2]) == 8 for it in taken))
        self.assertEqual({names.here("node", names.there("node", it)) for it in taken}, taken)

    def test_other_characters_are_refused(self):
        for name in ("a\tb", "a\nb", "\x1b[31m", "a\x9b", "\udc80", "\uffff"):
            with self.subTest(name), self.assertRaisesRegex(Refused, "has a character that no name may have"):
                Names().take("rack", name)


class Files(unittest.TestCase):
    """The file of names."""

    def setUp(self):
        self.folder = tempfile.mkdtemp(prefix="names-test-")
        self.addCleanup(shutil.rmtree, self.folder)
        self.log = os.path.join(self.folder, "a.log")

    def write(self, path, *lines):
        """Writes a file."""
        with open(path, "w", encoding="utf-8") as it:
            it.write("".join(f"{line}\n" for line in lines))

    def test_the_file_keeps_all_names(self):
        self.assertEqual(names_of(self.log).pairs(), [])
        names = Names()
        pairs = [("keyspace", names.take("keyspace", LONG), LONG), ("keyspace", names.take("keyspace", "ks"), "ks")]
        names.save(path_of(self.log))
        self.assertEqual(names_of(self.log).pairs(), pairs)

    def test_lines_that_do_not_fit_are_told(self):
        for line in (
            "keyspace x",
            "thing\ta\tb",
            "node\ta b\tc",
            "node\ta\tb\nnode\ta\tc",
            "node\ta\tc\nnode\tb\tc",
            "node\ta\t",
        ):
            self.write(path_of(self.log), "# first", "", line)
            with self.subTest(line), self.assertRaisesRegex(Refused, r"a\.log\.names:[34]: "):
                names_of(self.log)
        with open(path_of(self.log), "wb") as it:
            it.write(b"\xff")
        with self.assertRaisesRegex(Refused, "no text in UTF-8"):
            names_of(self.log)
        os.remove(path_of(self.log))
        os.mkdir(path_of(self.log))
        with self.assertRaisesRegex(Refused, "a.log.names can't be read"):
            names_of(self.log)

    def test_the_names_that_the_log_has_are_taken(self):
        entries = [
            {"kind": "register", "name": "2001-db8--7", "dc": "us-east", "rack": "r1"},
            {"kind": "keyspace", "name": "my-ks", "replication": "topology eu-west:3 x:1"},
            {"kind": "keyspace", "name": "s", "replication": "simple 3"},
            {"kind": "drop-keyspace", "name": "my-ks"},
        ]
        lines = [json.dumps({"command": it, "entry": i, "epoch": i}) for i, it in enumerate(entries, 1)]
        self.write(self.log, HEADER, *lines, "register", '{"command":["keyspace"]}')
        names = names_of(self.log)
        self.assertEqual([names.choose("keyspace", it)[:6] for it in ("my-ks", "my/ks")], ["my-ks", "my-ks-"])
        self.assertNotEqual(names.choose("datacenter", "eu/west"), "eu-west")
        self.assertEqual(len(names.pairs()), 9)
        self.assertEqual(names.choose("node", "2001-db8--7"), "2001-db8--7")

    def test_a_file_of_another_log_is_told(self):
        self.write(self.log, HEADER)
        names = Names()
        names.take("rack", "r 1")
        names.save(path_of(self.log))
        self.assertEqual(len(names_of(self.log).pairs()), 1)
        self.write(self.log, HEADER, '{"entry":1}')
        self.assertEqual(len(names_of(self.log).pairs()), 1)
        names.save(path_of(self.log))
        for lines in ([HEADER, '{"entry":2}'], [HEADER], [HEADER.replace("one", "two"), '{"entry":1}'], []):
            self.write(self.log, *lines)
            with self.subTest(lines), self.assertRaisesRegex(Refused, r"a.log.names:2: these are the names of a log of one"):
                names_of(self.log)
        os.remove(self.log)
        with self.assertRaisesRegex(Refused, "isn't there"):
            names_of(self.log)
        self.write(self.log, HEADER, '{"entry":1}', '{"entry":2}')
        self.assertEqual(len(names_of(self.log).pairs()), 1)


if __name__ == "__main__":
    unittest.main()
