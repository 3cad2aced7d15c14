"""Tests of answers, sums over placements, and pictures."""
import re
import unittest
import xml.etree.ElementTree

from tools.answers import Node, Placement, Row, Stream, framed, read_nodes, read_placement, read_plan
from tools.bands import draw_bands
from tools.errors import Refused
from tools.placements import merged, pending_shares, read_shares
from tools.rings import draw_rings
from tools.svg import length, wrapped
from tools.terms import GREATEST, LEAST, WHOLE, percent

PLACE = ["PLACE 12 ks 3", "(min,0] read 1 write 1,2", "(0,100] read 2 write 2", "(100,max] read 1 write 1"]
NODES = ["NODES 12 2 1", "1 a dc1 r1 JOINED 0", "2 b dc1 r1 MOVING 100", "SEQ 2 move STARTED out 100@2 in -7@2"]


class Answers(unittest.TestCase):
    """Answers."""

    def test_answers_are_framed(self):
        lines = ["OK 1", *PLACE, "REPLAY 3 at 3 waiting 0 full 0", *NODES, "AT 3", "NO DC"]
        self.assertEqual([it[0].split()[0] for _, it in framed(lines)], ["OK", "PLACE", "REPLAY", "NODES", "AT", "NO"])
        for broken in (PLACE[:2], ["hello"], [""]):
            with self.subTest(broken), self.assertRaises(Refused):
                list(framed(broken))

    def test_answers_are_read(self):
        self.assertEqual(read_placement(PLACE).rows[0], Row(None, 0, (1,), (1, 2)))
        nodes = read_nodes(NODES)
        self.assertEqual((nodes.nodes[1].state, nodes.movements[0].incoming), ("MOVING", ((-7, 2),)))

    def test_numbers_have_at_most_twenty_digits(self):
        long = "1" * 5000
        for lines in ([f"PLACE {long} ks 0"], [f"NODES {long} 0 0"], [f"OK {long}"]):
            with self.assertRaises(Refused):
                list(framed(lines))
        for at, line in ((1, f"(min,{long}] read 1 write 1"), (1, f"(min,0] read {long} write 1")):
            with self.subTest(line[:20]), self.assertRaises(Refused):
                read_placement([PLACE[0], line, *PLACE[2:]])

    def test_stream_plans_are_read(self):
        rows = read_plan(["PLAN 14 5 ks 2", "(min,-7] to 5 from 4", "(8,max] to 6 any 1,2"])
        self.assertEqual(rows, [Stream(None, -7, 5, 4, ()), Stream(8, None, 6, None, (1, 2))])
        self.assertEqual([it.width for it in rows], [-7 - LEAST + 1, GREATEST - 8])
        for lines in (["PLAN 14 5 ks 2", "(min,-7] to 5 from 4"], ["OK 1"], ["PLAN 1 5 ks 1", "(min,0] to 5"]):
            with self.subTest(lines), self.assertRaises(Refused):
                read_plan(lines)

    def test_rows_that_do_not_follow_are_told(self):
        for at, line in (
            (1, "(min,0] read 2,1 write 2"), (2, "(1,100] read 2 write 2"), (3, "(100,200] read 1 write 1"), (2, "x")
        ):
            lines = [*PLACE]
            lines[at] = line
            with self.subTest(line), self.assertRaises(Refused):
                read_placement(lines)


class Sums(unittest.TestCase):
    """Shares and merged rows."""

    def test_shares_add_up(self):
        placement = read_placement(PLACE)
        self.assertEqual(sum(read_shares(placement).values()), WHOLE)
        self.assertEqual(pending_shares(placement), {2: 0 - LEAST + 1})
        self.assertEqual(percent(GREATEST + 1), "50.00%")

    def test_neighbours_merge_round_the_end_of_the_ring(self):
        rows = read_placement(PLACE).rows
        self.assertEqual([it.name for it, _ in merged((row, row.reads) for row in rows)], ["(100,0]", "(0,100]"])
        self.assertEqual([it.name for it, _ in merged((row, 1) for row in rows)], ["(min,max]"])
        self.assertEqual([it.name for it, _ in merged((row, 1) for row in rows if row.left != 0)], ["(100,0]"])


class Pictures(unittest.TestCase):
    """Rings and bands."""

    def test_no_text_is_cut(self):
        placement = Placement(12, "k" * 46, read_placement(PLACE).rows)
        nodes = [
            Node(1, "2001:db8:1234:5678:1234:5678:1234:5678", "a" * 32, "r" * 32, "JOINED", ()),
            Node(2, "b", "c", "d", "JOINED", ()),
        ]
        pictures = [
            draw_rings([placement] * 2, [1, 2], {it.id: it.name for it in nodes}), draw_bands([placement], nodes)
        ]
        for said in pictures:
            self.check_texts(xml.etree.ElementTree.fromstring(said))

    def check_texts(self, picture):
        """Checks that each text that isn't turned ends before the border."""
        width = float(picture.get("width"))
        for group in picture.iter():
            shift = group.get("transform", "")
            left = float(shift[10:].split(" ")[0]) if shift.startswith("translate(") else 0.0
            for it in group.findall("{http://www.w3.org/2000/svg}text"):
                long = length(it.text, float(it.get("font-size", 11))) * 0.9
                anchor = {"start": 0.0, "middle": 0.5, "end": 1.0}[it.get("text-anchor")]
                begin = left + float(it.get("x")) - anchor * long
                self.assertTrue(0 <= begin and begin + long <= width, it.text)

    def test_read_and_pending_are_told_apart(self):
        drawn = draw_bands(
            [read_placement(PLACE)], [Node(1, "a", "dc1", "r1", "", ()), Node(2, "b", "dc1", "r1", "", ())]
        )
        for told in ("(min,0] a: read and written", "(100,max] a: read and written"):
            self.assertEqual(drawn.count(f"<title>{told}</title>"), 1)
        self.assertEqual(drawn.count("<title>(min,0] b: written, not read</title>"), 1)
        self.assertIn("0.00% + 50.00%", drawn)

    def test_a_datacenter_without_replicas_is_one_line(self):
        nodes = [Node(1, "a", "dc1", "r1", "", ()), Node(2, "b", "dc1", "r1", "", ()), Node(3, "c", "dc2", "r1", "", ())]
        drawn = draw_bands([read_placement(PLACE)], nodes)
        self.assertIn(">Datacenter dc2: no replicas<", drawn)
        self.assertNotIn(">c<", drawn)

    def test_dark_viewers_get_other_colours(self):
        self.assertIn("prefers-color-scheme: dark", draw_rings([read_placement(PLACE)], [1, 2], {}))

    def test_odd_names_stay_text(self):
        for odd in ("<script>x</script>", "a & b", 'q"\'>', "\x1b[31m\x00\x9b", "\ufffe\ud800", "]]>", "<!--"):
            nodes = [Node(i, odd, odd, f"{odd}{i}", "JOINED", ()) for i in (1, 2)]
            placement = Placement(12, odd, read_placement(PLACE).rows)
            shown = re.sub("[\x00-\x1f\x7f-\x9f\ud800-\udfff\ufffe]", "\ufffd", odd)
            for said in (
                draw_rings([placement], [1, 2], {1: odd, 2: odd}), draw_bands([placement], nodes)
            ):
                texts = [it.text for it in xml.etree.ElementTree.fromstring(said.encode()).iter() if it.text]
                self.assertFalse("<script" in said or "\x1b" in said)
                self.assertTrue(any(it.endswith(f"{shown}: read and written") for it in texts), odd)
                self.assertIn(f"keyspace {shown}, epoch 12", texts)

    def test_captions_break(self):
        self.assertEqual(wrapped("a bb ccc", length("a bb")), ["a bb", "ccc"])


if __name__ == "__main__":
    unittest.main()
