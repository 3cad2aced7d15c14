"""Tests of files of wishes."""
import unittest

from tools.errors import Refused
from tools.terms import GREATEST, LEAST, WHOLE
from tools.wishes import command_of, dead_first, draw_tokens, read_wishes


class Wishes(unittest.TestCase):
    """Wishes."""

    def test_each_kind_is_read(self):
        lines = [
            "# a remark",
            "",
            "join a dc1 r1 16 tokens",
            "join b dc1 r1 5 -7",
            "leave c",
            "move d 9",
            "down e  # dead",
            "replace f for e",
        ]
        wishes, down, _ = read_wishes(lines, "w")
        self.assertEqual(down, ["e"])
        self.assertEqual(
            [(it.kind, it.name, it.tokens, it.draws) for it in wishes][:2],
            [("join", "a", (), 16), ("join", "b", (-7, 5), 0)],
        )
        self.assertEqual([it.name for it in dead_first(wishes, down)], ["f", "a", "b", "c", "d"])
        self.assertEqual(command_of(wishes[4]), "prepare-replace f e")
        self.assertEqual(command_of(wishes[1], 7), "prepare-join 7 -7 5")

    def test_other_lines_are_told(self):
        for line in (
            "join a dc1 r1",
            "join a dc1 r1 x",
            "join a b c 257 tokens",
            "join a b c 0 tokens",
            "join a b c 5 5",
            "leave",
            "replace a b",
            "move a",
            "go a",
            f"move a {2**63}",
        ):
            with self.subTest(line), self.assertRaisesRegex(Refused, "^w:1: "):
                read_wishes([line], "w")
        with self.assertRaisesRegex(Refused, "no wish is there"):
            read_wishes(["down a"], "w")
        with self.assertRaisesRegex(Refused, "w:2: a has a wish already"):
            read_wishes(["leave a", "leave a"], "w")

    def test_nodes_are_called_by_their_addresses(self):
        wishes, down, _ = read_wishes(["down /10.0.0.4", "leave /10.0.0.4", "replace a for 2001:db8:0::1"], "w")
        self.assertEqual((down, wishes[0].name, wishes[1].gone), (["10.0.0.4"], "10.0.0.4", "2001:db8::1"))
        self.assertEqual([it.name for it in dead_first(wishes, ["x"], lambda it: "x" if "::" in it else it)], ["a", "10.0.0.4"])
        with self.assertRaisesRegex(Refused, "w:1: these are 257 tokens"):
            read_wishes([f"join a b c {' '.join(map(str, range(257)))}"], "w")

    def test_drawn_tokens_part_the_ring_evenly(self):
        for count in (1, 3, 16, 256):
            tokens = draw_tokens("a", count, 1, ())
            self.assertEqual((len(set(tokens)), tokens), (count, sorted(tokens)))
            self.assertTrue(all(LEAST <= it <= GREATEST for it in tokens))
            apart = [(b - a) % WHOLE for a, b in zip(tokens, [*tokens[1:], tokens[0]])]
            self.assertTrue(count == 1 or max(apart) - min(apart) <= 1)

    def test_a_taken_token_gives_way(self):
        first = draw_tokens("a", 1, 1, ())[0]
        self.assertEqual(draw_tokens("a", 1, 1, {first, first + 1}), [first + 2])
        self.assertNotEqual(draw_tokens("a", 1, 2, ()), [first])
        self.assertNotEqual(draw_tokens("b", 1, 1, ()), [first])


if __name__ == "__main__":
    unittest.main()
