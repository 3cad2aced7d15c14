"""Tests of movements and names of a live cluster at import, and of plans that begin with them."""
import json
import os
import time
import unittest

from tools.log import state
from tools.names import names_of
from tools.nodetool import read_describering, read_ring
from tools.tests.cluster import InTutorial, cluster, needs_program

ROW = "{:<20}rack1       Up     {:<8}104.36 KiB      49.87%              {}"


def ring_of(rows):
    """Returns what nodetool ring prints for a datacenter, by address, state and token."""
    head = ["Datacenter: dc1", "==========", "Address Rack Status State Load Owns Token", f"   {rows[-1][2]}"]
    return "\n".join([*head, *(ROW.format(*it) for it in rows), ""])


SETTLED = [(f"10.0.0.{i}", "Normal", 100 * i) for i in range(1, 6)]
SCHEMA = "CREATE KEYSPACE ks WITH replication = {'class': 'SimpleStrategy', 'replication_factor': '2'};\n"


@needs_program
class InFlight(InTutorial):
    """Movements that nodetool ring shows."""

    def imported(self, rows, *words):
        """Imports a ring, and returns the status and what was said."""
        self.write("r.txt", ring_of(sorted(rows, key=lambda it: it[2])))
        self.write("s.cql", SCHEMA)
        if os.path.exists("r.log"):
            os.remove("r.log")
        return cluster("import", "r.txt", "s.cql", "--log", "r.log", "--cluster", "r", *words)

    def movements(self):
        """Returns the movements of the log: node, kind, phase and tokens."""
        now = state("r.log")
        return [(now.by_id[it.node].name, it.kind, it.phase, it.outgoing, it.incoming) for it in now.movements]

    def test_joining_leaving_and_moving_nodes_have_movements(self):
        status, _, said = self.imported([*SETTLED, ("10.0.0.9", "Joining", 350)])
        self.assertEqual((status, self.movements()), (0, [("10.0.0.9", "join", "STARTED", (), ((350, 6),))]))
        self.assertIn("10.0.0.9 is Joining: its join is in flight in the log, at STARTED", said)
        rows = [SETTLED[0], ("10.0.0.2", "Leaving", 200), *SETTLED[2:]]
        self.assertEqual(self.imported(rows)[0], 0)
        self.assertEqual(self.movements(), [("10.0.0.2", "leave", "STARTED", ((200, 2),), ())])
        self.write("w.txt", "join n dc1 rack1 210\n")
        told = json.loads(cluster("whatif", "r.log", "w.txt", "--json")[1])
        self.assertIn("LOCKED 2", told["waves"][0]["waiting"][0]["answer"])

    def test_what_nodetool_does_not_say_is_asked_for(self):
        rows = [SETTLED[0], ("10.0.0.2", "Moving", 200), *SETTLED[2:]]
        status, _, said = self.imported(rows)
        self.assertEqual((status, os.path.exists("r.log"), os.path.exists("r.log.names")), (1, False, False))
        self.assertIn("r.txt:6: 10.0.0.2 is Moving, and nodetool ring doesn't say to which token", said)
        self.assertEqual(self.imported(rows, "--moving", "/10.0.0.2", "450")[0], 0)
        self.assertEqual(self.movements(), [("10.0.0.2", "move", "STARTED", ((200, 2),), ((450, 2),))])
        self.assertEqual(self.imported(rows, "--settled", "10.0.0.2")[0], 0)
        self.assertEqual((self.movements(), state("r.log").by_id[2].tokens), ([], (200,)))
        for words in (["--settled", "10.0.0.1"], ["--moving", "10.0.0.1", "5"], ["--settled", "x"]):
            status, _, said = self.imported(rows, *words)
            self.assertEqual(status, 1)
            self.assertIn("isn't in such a movement", said)
        self.assertEqual(self.imported(rows, "--moving", "10.0.0.2", "9" * 5000)[0], 2)

    def test_movements_that_overlap_are_told(self):
        rows = [SETTLED[0], ("10.0.0.2", "Leaving", 200), ("10.0.0.3", "Leaving", 300), *SETTLED[3:]]
        status, _, said = self.imported(rows)
        self.assertEqual((status, os.path.exists("r.log")), (1, False))
        self.assertIn("10.0.0.3 is Leaving, and tcm refuses its movement: NO LOCKED 2", said)
        self.assertIn("--settled 10.0.0.3", said)
        self.assertEqual(self.imported(rows, "--settled", "10.0.0.3")[0], 0)
        status, _, said = self.imported([*SETTLED, ("10.0.0.9", "Joining", 350)], "--settled", "10.0.0.9")
        self.assertEqual((status, self.movements(), state("r.log").by_id[6].state), (0, [], "REGISTERED"))


@needs_program
class Edges(InTutorial):
    """Files that don't fit, and names that differ."""

    def test_what_is_not_understood_is_refused_or_named(self):
        self.write("w.cql", "WARNING: cqlsh was built against 5.0\n" + self.read("schema.cql"))
        words = ("import", "ring.txt", "w.cql", "--log", "w.log", "--cluster", "w")
        status, _, said = cluster(*words)
        self.assertEqual((status, os.path.exists("w.log")), (1, False))
        self.assertIn("w.cql:1: `WARNING: cqlsh was built against 5.0` begins no statement", said)
        status, _, said = cluster(*words, "--skip-unknown")
        self.assertEqual((status, state("w.log").replications), (0, state("shop.log").replications))
        self.assertIn("w.cql: line 1 is passed over: `WARNING", said)

    def test_names_stay_apart_from_import_to_plan(self):
        self.assertIn("# log\tshop\t", self.read("shop.log.names"))
        for dc in ("dc/1", "dc 1".replace(" ", "_"), "d~c"):
            self.write("w.txt", f"join n {dc} rack1 4 tokens\n")
            self.assertEqual(cluster("whatif", "shop.log", "w.txt", "--script", "p.script", "--force")[0], 0)
            self.assertIn(f"register n {dc} rack1", self.read("p.script"))
        self.write("p.script", "drop-keyspace sh/op\n")
        self.assertIn("NO NO-KEYSPACE", cluster("apply", "shop.log", "p.script")[2])
        self.write("p.script", "register n dc/1 rack1\n")
        self.assertEqual(cluster("apply", "shop.log", "p.script")[0], 0)
        self.assertEqual(names_of("shop.log").there("datacenter", state("shop.log").by_id[5].dc), "dc/1")
        self.assertIn("shop", state("shop.log").replications)

    def test_names_of_another_log_are_refused(self):
        self.write("other.log", self.read("shop.log").replace("shop", "other", 1))
        self.write("other.log.names", self.read("shop.log.names"))
        for words in (["status", "other.log"], ["whatif", "other.log", "wishes.txt"]):
            status, _, said = cluster(*words)
            self.assertEqual(status, 1)
            self.assertIn("other.log.names:2: these are the names of a log of shop", said)

    def test_wishes_that_cannot_come_true_have_no_line(self):
        self.write("w.txt", "down /10.0.0.4\njoin 10.0.0.1 dc1 rack1 4 tokens\nreplace 10.0.0.9 for 10.0.0.8\n")
        self.assertIn("no node 10.0.0.8", cluster("whatif", "shop.log", "w.txt")[2])
        self.write("w.txt", "join n1 dc1 rack1 0\nreplace n2 for n1\nleave 10.0.0.4\ndown /10.0.0.4\nmove 10.0.0.1 5\n")
        status, _, said = cluster("whatif", "shop.log", "w.txt", "--script", "p.script", "--seed", "7")
        self.assertEqual(status, 1)
        for name, why in (("n2", "NO OTHER-RACK"), ("10.0.0.1", "NO NOT-ONE-TOKEN 4")):
            if name == "10.0.0.1":
                self.assertIn(f"{name} has no place in any wave: tcm answers {why}", said)
                self.assertNotIn(f"move {name}", self.read("p.script"))
        self.assertTrue(self.read("p.script").startswith("# plan of the cluster shop at epoch 10\n"))
        self.assertEqual(cluster("apply", "shop.log", "p.script", "--dry-run")[0], 0)
        self.write("w.txt", "leave 10.0.0.1\nleave /10.0.0.1\n")
        self.assertIn("10.0.0.1 has a wish already", cluster("whatif", "shop.log", "w.txt")[2])

    def test_racks_that_are_not_compared_are_told(self):
        text = self.read("describering-shop.txt")
        for change in (lambda it: it.partition(", endpoint_details")[0] + ")", lambda it: it.replace(", rack:", " rack:")):
            lines = [change(it) if "TokenRange(" in it else it for it in text.split("\n")]
            self.write("d.txt", "\n".join(lines))
            status, out, _ = cluster("compare", "shop.log", "shop", "d.txt")
            self.assertEqual(status, 0)
            self.assertIn("d.txt:3: and later: racks not compared in 16 ranges", out)
        self.assertNotIn("racks", cluster("compare", "shop.log", "shop", "describering-shop.txt")[1])


class Times(unittest.TestCase):
    """Long lines."""

    def test_lines_take_no_longer_than_their_length(self):
        begin, wide = time.process_time(), " " * 200000
        rows = [(*it[:2], it[2]) for it in SETTLED]
        lines = [it.replace(" ", wide, 1) for it in ring_of(rows).split("\n")]
        self.assertEqual(len(read_ring([*lines, wide, "Note:" + wide], "r")), 5)
        for line in (wide + "x", "a " + "b " * 50000, "x" * 200000, "a b Up Normal " * 20000):
            with self.assertRaises(Exception):
                read_ring([*lines[:4], line], "r")
        details = "EndpointDetails(host:1.1.1.1, datacenter:" * 20000
        said = f"TokenRange(start_token:1, end_token:2, endpoints:[1.1.1.1], endpoint_details:[{details}])"
        self.assertEqual(read_describering([said], "d")[0].places, {})
        self.assertLess(time.process_time() - begin, 5)


if __name__ == "__main__":
    unittest.main()
