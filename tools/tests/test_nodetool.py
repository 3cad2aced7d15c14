"""Tests of reading what nodetool prints."""
import os
import unittest

from tools.errors import Refused
from tools.nodetool import order_of, read_describering, read_ring
from tools.program import TOP

BUNDLE = os.path.join(TOP, "examples", "tutorial", "bundle")


def lines_of(name):
    """Returns the lines of a file of the tutorial."""
    with open(os.path.join(BUNDLE, name), encoding="utf-8") as it:
        return it.read().split("\n")


class Ring(unittest.TestCase):
    """nodetool ring."""

    def refusal(self, lines):
        """Returns why lines are refused."""
        with self.assertRaises(Refused) as why:
            read_ring(lines, "ring.txt")
        return str(why.exception)

    def test_nodes_come_with_their_tokens(self):
        nodes = read_ring(lines_of("ring.txt"), "ring.txt")
        self.assertEqual([it.address for it in nodes], ["10.0.0.1", "10.0.0.2", "10.0.0.3", "10.0.0.4"])
        self.assertEqual([(it.dc, it.rack, it.status, len(it.tokens)) for it in nodes][3], ("dc1", "rack1", "Down", 4))

    def test_spacing_does_not_matter(self):
        wanted = read_ring(lines_of("ring.txt"), "ring.txt")
        for change in (lambda it: "  ".join(it.split()), lambda it: "\t".join(it.split()), lambda it: "   " + it + " "):
            self.assertEqual(read_ring([change(it) for it in lines_of("ring.txt")], "ring.txt"), wanted)

    def test_long_racks_stand_close(self):
        rows = [it.replace("rack3       ", "asia-northeast1-a") for it in lines_of("ring.txt")]
        self.assertEqual({it.rack for it in read_ring(rows, "ring.txt")}, {"rack1", "rack2", "asia-northeast1-a"})
        rows = [it.replace("rack3", "Down") for it in lines_of("ring.txt")]
        self.assertEqual([it.rack for it in read_ring(rows, "ring.txt")], ["rack1", "rack2", "Down", "rack1"])

    def test_a_missing_row_is_told(self):
        lines = lines_of("ring.txt")
        last = max(i for i, it in enumerate(lines) if "9158516072569077398" in it)
        self.assertIn("rows are missing", self.refusal(lines[:last] + lines[last + 1 :]))

    def test_two_clusters_are_told(self):
        self.assertIn(
            "ring.txt:29: the datacenter dc1 comes a second time", self.refusal(lines_of("ring.txt")[:-1] * 2)
        )
        twice = [it.replace("-8758456148276486360", "500551957913137708") for it in lines_of("ring.txt")]
        self.assertIn("the token 500551957913137708 is 10.0.0.3's already", self.refusal(twice))
        moved = lines_of("ring.txt")
        moved[5] = moved[5].replace("rack3", "rack9")
        self.assertIn("10.0.0.3 is in dc1 rack3 here, and in dc1 rack9 in line 6", self.refusal(moved))

    def test_other_partitioners_are_told(self):
        for said, why in (
            ("170141183460469231731687303715884105727", "out of range"), ("6f7a", "no token of Murmur3Partitioner")
        ):
            lines = [it.replace("-8758456148276486360", said) for it in lines_of("ring.txt")]
            self.assertRegex(self.refusal(lines), f"ring.txt:6: .*{said}.*{why}|ring.txt:6: .*{why}")

    def test_other_files_are_told(self):
        self.assertIn("no node of nodetool ring", self.refusal([""]))
        self.assertIn("ring.txt:1: `Datacenter: NAME` is to come first, not `hello`", self.refusal(["hello world"]))
        self.assertIn(
            "ring.txt:3: no line of nodetool ring: `UN", self.refusal(["Datacenter: a", "====", "UN x 1 2 3"])
        )

    def test_addresses_ascend_as_people_count(self):
        self.assertEqual(sorted(["10.0.0.10", "10.0.0.9", "a"], key=order_of), ["10.0.0.9", "10.0.0.10", "a"])


class Describering(unittest.TestCase):
    """nodetool describering."""

    def test_ranges_come_with_endpoints_and_places(self):
        ranges = read_describering(lines_of("describering-shop.txt"), "d.txt")
        self.assertEqual(len(ranges), 16)
        self.assertEqual((ranges[0].start, ranges[0].end), (9158516072569077398, -8758456148276486360))
        self.assertEqual(ranges[0].places[ranges[0].endpoints[0]][0], "dc1")

    def test_spacing_does_not_matter(self):
        wanted = read_describering(lines_of("describering-shop.txt"), "d.txt")
        for a, b in ((", ", ","), (", ", ",  "), (":", ": "), ("\t", "    ")):
            lines = [it.replace(a, b) for it in lines_of("describering-shop.txt")]
            self.assertEqual(read_describering(lines, "d.txt"), wanted)

    def test_a_cut_line_is_told(self):
        lines = lines_of("describering-shop.txt")
        lines[4] = lines[4][:90]
        with self.assertRaisesRegex(Refused, "d.txt:5: this is to be TokenRange"):
            read_describering(lines, "d.txt")
        with self.assertRaisesRegex(Refused, "no TokenRange"):
            read_describering([""], "d.txt")
        with self.assertRaisesRegex(Refused, "d.txt:1: no line of nodetool describering: `nodetool:"):
            read_describering(["nodetool: Failed to connect"], "d.txt")


if __name__ == "__main__":
    unittest.main()
