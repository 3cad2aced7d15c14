"""Tests of plans: slips in wishes, margins where they change, nodes that are down, and lint."""
import io
import json
import os
import unittest
from contextlib import redirect_stderr

from tools.near import is_same_but_spelled, meant, nearest
from tools.progress import Progress
from tools.tests.cluster import InTutorial, cluster, needs_program


class Near(unittest.TestCase):
    """Names that are near."""

    def test_the_nearest_is_meant(self):
        self.assertEqual(nearest("rak2", ["rack1", "rack2"]), "rack2")
        self.assertEqual(meant("10.0.0.44", ["10.0.0.4", "10.1.1.1"]), "; did you mean 10.0.0.4?")
        self.assertEqual(meant("DC-1", ["dc1"]), "; dc1 differs from it in spelling only")
        self.assertEqual(meant("east", ["west-2", "north"]), "")
        self.assertTrue(is_same_but_spelled("us_east", "US-East"))


class Terminal(io.StringIO):
    """A standard error that is a terminal."""

    def isatty(self):
        return True


class Shown(unittest.TestCase):
    """Progress."""

    def test_it_is_shown_on_a_terminal_alone(self):
        for err in (Terminal(), io.StringIO()):
            with redirect_stderr(err), Progress() as progress:
                progress.last -= 1
                progress.say("trying join a")
            self.assertEqual("trying join a, 0 s" in err.getvalue(), err.isatty())
        self.assertTrue(err.getvalue() == "")


@needs_program
class Slips(InTutorial):
    """Slips in wishes."""

    def slips(self, *wishes):
        """Returns the slips in wishes, by the line."""
        self.write("w.txt", "".join(f"{it}\n" for it in wishes))
        status, out, said = cluster("whatif", "shop.log", "w.txt", "--json")
        slips = json.loads(out)["slips"]
        self.assertEqual(said.count("cluster: "), len(slips))
        self.assertEqual(cluster("whatif", "shop.log", "w.txt", "--strict", "--script", "x")[0], 1 if slips else status)
        self.assertEqual(os.path.exists("x"), not slips)
        return slips

    def test_wishes_without_one_have_none(self):
        self.assertEqual(self.slips("down 10.0.0.4", "replace 10.0.0.5 for 10.0.0.4"), [])

    def test_new_places_are_told(self):
        tokens = "-8000000000000000000 -3000000000000000000 2000000000000000000 7000000000000000000"
        slips = self.slips(f"join a dc2 rack2 {tokens}", "join b dc1 rak2 4 tokens")
        self.assertIn("w.txt:1: the datacenter dc2 is new", slips)
        self.assertIn("w.txt:2: the rack rak2 of dc1 is new, beside rack1, rack2, rack3; did you mean rack2?", slips)

    def test_nodes_that_are_down_are_told(self):
        slips = self.slips("down 10.0.0.4", "leave 10.0.0.4", "replace a for 10.0.0.3")
        self.assertEqual(slips, [
            "w.txt:2: 10.0.0.4 is down: a leave streams from it; `replace NEW for 10.0.0.4` doesn't",
            "w.txt:3: 10.0.0.3 isn't down by `down 10.0.0.3`, and a replace is for a dead node",
        ])

    def test_a_share_far_from_fair_is_told(self):
        self.assertEqual(
            [it[:38] for it in self.slips("join a dc1 rack1 0 1 2 3")], ["w.txt:1: a gets 0.16 times its fair sh"]
        )

    def test_too_few_racks_are_told(self):
        self.assertIn(
            "shop: 3 replicas in dc1, which would have 2 racks after the plan, and 3 before",
            self.slips("join a dc1 rack1 4 tokens", "leave 10.0.0.3"),
        )

    def test_keyspaces_that_were_missing_are_told(self):
        self.write("shop.log.seen", "missing\tsystem_auth\n")
        self.assertIn("the log has no keyspace system_auth", self.slips("leave 10.0.0.1")[0])

    def test_names_that_are_not_there_are_told_with_those_that_are_near(self):
        self.write("w.txt", "leave 10.0.0.44\n")
        said = cluster("whatif", "shop.log", "w.txt")[2]
        self.assertIn("no node 10.0.0.44 is in the log; did you mean 10.0.0.4?", said)
        said = cluster("compare", "shop.log", "Shop", "describering-shop.txt")[2]
        self.assertIn("no keyspace Shop at epoch 10, only logs, shop; shop differs from it in spelling only", said)


@needs_program
class Texts(InTutorial):
    """Texts of plans."""

    def test_margins_are_shown_where_they_change_and_a_node_that_was_replaced_is_not_down(self):
        out = cluster("whatif", "shop.log", "wishes.txt")[1]
        first, second, after = out.split("Replicas that a quorum can still lose")[0:3]
        self.assertIn("Wave 1", first)
        self.assertTrue(second.startswith(" while 10.0.0.4 is down\n"))
        self.assertTrue(after.startswith(" now, where it changed\n"))
        self.assertEqual(out.count("is down"), 1)
        waves = json.loads(cluster("whatif", "shop.log", "wishes.txt", "--json")[1])["waves"]
        self.assertEqual([it["down"] for it in waves], [["10.0.0.4"], []])

    def test_escape_codes_in_wishes_do_not_reach_a_terminal(self):
        self.write("w.txt", "leave \x1b[31mred\n")
        self.assertNotIn("\x1b", "".join(cluster("whatif", "shop.log", "w.txt")[1:]))

    def test_lint_knows_plans(self):
        self.assertEqual(cluster("whatif", "shop.log", "wishes.txt", "--script", "plan.script")[0], 0)
        self.assertEqual(cluster("lint", "plan.script")[0], 0)
        self.write("bad.script", self.read("plan.script").replace("start-join", "begin-join") + "prepare-leave\n")
        status, out, _ = cluster("lint", "bad.script")
        self.assertEqual((status, len(out.splitlines())), (1, 2))
        self.assertIn("bad.script:14:1: a command is expected, not `begin-join`", out)
