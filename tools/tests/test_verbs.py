"""Tests of the verbs over the program, on the cluster of the tutorial."""
import json
import os
import random
import re
import subprocess

from tools import compare
from tools.log import cluster_of, epochs_by_id, fresh_ids, last_epoch, state
from tools.names import Names
from tools.nodetool import read_describering
from tools.tests.cluster import YES, InTutorial, cluster, command, needs_program

REPLACE = """# the dead node
register 10.0.0.5 dc1 rack1
prepare-replace 10.0.0.5 10.0.0.4
start-replace 10.0.0.5
mid-replace 10.0.0.5
finish-replace 10.0.0.5
"""


@needs_program
class Import(InTutorial):
    """import."""

    def test_the_log_has_the_cluster(self):
        now = state("shop.log")
        self.assertEqual(
            [(it.name, it.rack, it.state, len(it.tokens)) for it in now.nodes.nodes][3],
            ("10.0.0.4", "rack1", "JOINED", 4),
        )
        self.assertEqual(now.replications, {"logs": "simple 2", "shop": "topology dc1:3"})

    def test_a_script_does_the_same(self):
        self.assertEqual(cluster("import", "ring.txt", "schema.cql", "--script", "shop.script")[0], 0)
        self.assertEqual(cluster("answers", "shop.script")[0], 0)
        self.assertEqual(cluster("lint", "shop.script")[0], 0)

    def test_a_log_is_not_written_over(self):
        before = self.read("shop.log")
        status, _, said = cluster("import", "ring.txt", "schema.cql", "--log", "shop.log", "--cluster", "shop")
        self.assertEqual((status, self.read("shop.log")), (1, before))
        self.assertIn("is there already", said)

    def test_what_does_not_fit_is_told_and_left_out_by_name(self):
        more = "CREATE KEYSPACE {} WITH replication = {{'class': '{}', '{}': '{}'}};\n"
        unfit = [
            more.format("t", "NetworkTopologyStrategy", "dc1", "3/1"),
            more.format("e", "EverywhereStrategy", "a", "1"),
            more.format("s", "SimpleStrategy", "replication_factor", "17"),
            more.format("o", "NetworkTopologyStrategy", "other", "3"),
        ]
        self.write("more.cql", self.read("schema.cql") + "".join(unfit))
        more_log = ("import", "ring.txt", "more.cql", "--log", "more.log", "--cluster", "more")
        status, _, said = cluster(*more_log)
        self.assertEqual((status, os.path.exists("more.log")), (1, False))
        for word in (
            "transient replicas",
            "EverywhereStrategy is neither",
            "17 isn't 1 to 16",
            "the ring has no datacenter other",
        ):
            self.assertIn(word, said)
        out = [word for it in "teso" for word in ("--leave-out", it)]
        self.assertEqual(cluster(*more_log, *out)[0], 0)


@needs_program
class Compare(InTutorial):
    """compare."""

    def test_each_planted_difference_is_found(self):
        lines, now, draw = self.read("describering-shop.txt").split("\n"), state("shop.log"), random.Random(3)
        self.assertEqual(cluster("compare", "shop.log", "shop", "describering-shop.txt")[0], 0)
        for _ in range(1000):
            at = draw.randrange(2, len(lines) - 1)
            planted = planted_in(lines, at, draw)
            self.assertTrue(compare.differences(read_describering(planted, "d"), "shop", now, Names()), planted[at])

    def test_a_difference_has_status_1_and_its_line(self):
        self.write("d.txt", self.read("describering-shop.txt").replace("10.0.0.3", "10.0.0.9"))
        status, out, _ = cluster("compare", "shop.log", "shop", "d.txt")
        self.assertEqual(status, 1)
        self.assertIn("d.txt:3: (9158516072569077398,-8758456148276486360]: 10.0.0.9 only in describering", out)
        told = json.loads(cluster("compare", "shop.log", "shop", "d.txt", "--json")[1])
        self.assertEqual((told["ranges"], len(told["differences"])), (16, 16))


def planted_in(lines, at, draw):
    """Returns the lines of describering with one difference."""
    line, kind = lines[at], draw.choice(["end", "start", "replica", "rack", "lost", "twice", "fewer"])
    ends = re.findall(r"_token:(-?\d+)", line)
    endpoints = re.search(r" endpoints:\[([^\]]*)\]", line)[1].split(", ")
    other = next(it for it in ("10.0.0.1", "10.0.0.2", "10.0.0.3", "10.0.0.4") if it not in endpoints)
    changed = {
        "end": [line.replace(f"end_token:{ends[1]}", f"end_token:{int(ends[1]) + draw.choice([-1, 1])}")],
        "start": [line.replace(f"start_token:{ends[0]}", f"start_token:{int(ends[0]) + draw.choice([-1, 1])}")],
        "replica": [line.replace(draw.choice(endpoints), other)],
        "rack": [line.replace("rack:rack2", "rack:rack3")],
        "lost": [],
        "twice": [line, line],
        "fewer": [re.sub(r" endpoints:\[[^\]]*\]", f" endpoints:[{', '.join(endpoints[1:])}]", line)],
    }[kind]
    return [*lines[:at], *changed, *lines[at + 1 :]]


@needs_program
class Apply(InTutorial):
    """apply."""

    def test_names_become_ids_and_ids_are_fresh(self):
        self.write("replace.script", REPLACE)
        self.assertEqual(cluster("apply", "shop.log", "replace.script", "--dry-run")[0], 0)
        self.assertEqual(last_epoch("shop.log"), 10)
        status, out, _ = cluster("apply", "shop.log", "replace.script", *YES)
        self.assertEqual((status, last_epoch("shop.log")), (0, 15))
        self.assertIn("replace.script:6: finish-replace 10.0.0.5: OK 15", out)
        self.assertEqual(self.ask("nodes @15\n")[4], "4 10.0.0.4 dc1 rack1 LEFT -")
        self.assertNotIn(next(fresh_ids("shop.log")), epochs_by_id("shop.log"))

    def test_it_stops_at_the_first_refusal(self):
        self.write("a.script", "start-replace 10.0.0.1\nregister z dc1 rack1\n")
        status, out, said = cluster("apply", "shop.log", "a.script")
        self.assertEqual((status, out, last_epoch("shop.log")), (3, "", 10))
        self.assertIn("a.script:1: start-replace 10.0.0.1: NO NO-SEQUENCE", said)
        self.assertIn("nothing is done", said)

    def test_a_new_log_needs_the_name_of_its_cluster(self):
        self.write("a.script", "register z dc1 rack1\n")
        status, _, said = cluster("apply", "new.log", "a.script")
        self.assertEqual((status, os.path.exists("new.log")), (1, False))
        self.assertIn("needs the name of its cluster", said)
        self.assertEqual(cluster("apply", "new.log", "a.script", "--dry-run")[0], 0)
        self.assertEqual(cluster("apply", "new.log", "a.script", "--cluster", "new")[0], 0)
        self.assertEqual((cluster_of("new.log"), last_epoch("new.log")), ("new", 1))
        self.write("a.script", "register y dc1 rack1\n")
        status, _, said = cluster("apply", "new.log", "a.script", "--cluster", "other")
        self.assertEqual((status, last_epoch("new.log")), (1, 1))
        self.assertIn("the log of the cluster new", said)
        self.assertEqual(cluster("apply", "new.log", "a.script")[0], 0)

    def test_a_slip_is_found_before_anything_is_done(self):
        for line in (
            "finish-replace nobody",
            "prepare-join 10.0.0.1 x",
            "mid-jion 10.0.0.1",
            "register a dc1",
            "keyspace k simple 99",
        ):
            self.write("a.script", f"register z dc1 rack1\n{line}\n")
            with self.subTest(line):
                status, _, said = cluster("apply", "shop.log", "a.script")
                self.assertEqual((status, last_epoch("shop.log")), (1, 10))
                self.assertIn("a.script:2: ", said)


@needs_program
class Plans(InTutorial):
    """whatif, moves, status and draw."""

    def test_the_plan_does_what_was_tried(self):
        status, out, _ = cluster("whatif", "shop.log", "wishes.txt", "--script", "plan.script")
        self.assertEqual((status, last_epoch("shop.log")), (0, 10))
        self.assertLess(out.index("replace 10.0.0.5 for 10.0.0.4"), out.index("Wave 2"))
        self.assertIn("(10.0.0.6 waits for 10.0.0.5, coupled by logs, shop)", out)
        self.assertEqual(cluster("apply", "shop.log", "plan.script", *YES)[0], 0)
        self.assertFalse(state("shop.log").movements)

    def test_margins_count_the_node_that_is_down(self):
        told = json.loads(cluster("whatif", "shop.log", "wishes.txt", "--json")[1])
        first = {(it["keyspaces"][0], it["level"]): (it["reads"], it["writes"]) for it in told["waves"][0]["can_lose"]}
        self.assertEqual(first[("shop", "LOCAL_QUORUM dc1")], (0, 0))
        self.assertEqual(first[("logs", "QUORUM")], (-1, -1))
        self.assertEqual(len(told["waves"][1]["movements"][0]["tokens"]), 4)

    def test_a_wish_that_cannot_come_true_is_told(self):
        self.write("w.txt", "leave 10.0.0.1\nleave 10.0.0.2\n")
        status, out, said = cluster("whatif", "shop.log", "w.txt")
        self.assertEqual(status, 1)
        self.assertIn("10.0.0.2 has no place in any wave: tcm answers NO TOO-FEW-NODES shop", said)
        self.assertIn("leave 10.0.0.1", out)

    def test_movements_in_flight_are_planned_with(self):
        self.write("replace.script", REPLACE)
        cluster("apply", "shop.log", "replace.script", "--yes", "start")  # (it stops before the mid- step)
        self.write("w.txt", "join 10.0.0.6 dc1 rack2 4 tokens\n")
        told = json.loads(cluster("whatif", "shop.log", "w.txt", "--json", "--script", "plan.script")[1])
        self.assertEqual(
            told["waves"][0]["in_flight_already"], [{"node": "10.0.0.5", "kind": "replace", "phase": "STARTED"}]
        )
        self.assertEqual([it["node"] for it in told["waves"][0]["waiting"][0]["coupled"]], ["10.0.0.5"] * 2)
        self.assertEqual(cluster("apply", "shop.log", "plan.script", *YES)[0], 0)

    def test_moves_cover_what_place_shows(self):
        self.write("replace.script", REPLACE)
        cluster("apply", "shop.log", "replace.script", "--yes", "start")
        told = json.loads(cluster("moves", "shop.log", "--down", "10.0.0.4", "--json")[1])[0]
        gone = json.loads(cluster("status", "shop.log", "--json")[1])["nodes"][3]
        self.assertEqual({it["keyspaces"][0]: it["share"] for it in told["streams"]}, gone["shares"])
        for group in told["streams"]:
            for it in group["ranges"]:
                self.assertEqual((it["to"], it["losing"]), (["10.0.0.5"], ["10.0.0.4"]))
                self.assertTrue(it["from"] and "10.0.0.4" not in it["from"])
        self.assertIn("commit `mid-replace 10.0.0.5`", told["steps"])
        pending = sum(1 for it in self.ask("place @13 shop\n")[1:] if it.split()[2] != it.split()[4])
        self.assertGreaterEqual(pending, len(told["streams"][1]["ranges"]))

    def test_status_shows_each_epoch(self):
        told = json.loads(cluster("status", "shop.log", "--json")[1])
        self.assertAlmostEqual(sum(it["shares"]["shop"] for it in told["nodes"]), 3, 4)
        self.assertEqual(
            json.loads(cluster("status", "shop.log", "@4", "--json")[1])["nodes"][3]["state"], "REGISTERED"
        )
        self.assertEqual(cluster("status", "shop.log", "@11")[0], 1)

    def test_many_ranges_in_a_ring_are_refused(self):
        rows = [f"({i if i else 'min'},{i + 1 if i < 100 else 'max'}] read 1 write 1" for i in range(101)]
        self.write("answers.txt", "\n".join(["PLACE 1 ks 101", *rows, ""]))
        self.assertEqual(cluster("draw", "--answers", "answers.txt")[0], 0)
        status, _, said = cluster("draw", "--answers", "answers.txt", "--shape", "rings")
        self.assertEqual(status, 1)
        self.assertIn("--shape bands", said)

    def same_keyspace(self):
        """Writes a script that makes a keyspace like another one, and returns its path."""
        self.write("again.script", "keyspace again simple 2\n")
        return "again.script"

    def test_logs_and_answers_are_drawn(self):
        for words in ([], ["10", "--shape", "bands"], ["--node", "10.0.0.1"], ["--keyspace", "logs"]):
            status, out, _ = cluster("draw", "--log", "shop.log", *words)
            self.assertEqual((status, out[:4]), (0, "<svg"))
        self.assertIn("keyspace logs, epoch 10", cluster("draw", "--log", "shop.log")[1])
        self.assertEqual(cluster("apply", "shop.log", self.same_keyspace())[0], 0)
        self.assertIn("keyspace again, logs, epoch 11", cluster("draw", "--log", "shop.log")[1])
        for words in (["8"], ["99"], ["--node", "nobody"], ["--keyspace", "none"]):
            self.assertEqual(cluster("draw", "--log", "shop.log", *words)[:2], (1, ""))


@needs_program
class Answers(InTutorial):
    """answers and logs that are refused."""

    def test_lines_come_with_their_answers(self):
        self.write("a.script", "commit 99 register z dc1 rack1\nnodes @99\n")
        status, out, _ = cluster("answers", "a.script", "--on", "shop.log")
        self.assertEqual((status, out), (1, "> commit 99 register z dc1 rack1\nOK 11\n> nodes @99\nNO EPOCH 11\n"))
        self.assertEqual(last_epoch("shop.log"), 10)

    def test_a_log_that_is_refused_is_told(self):
        lines = self.read("shop.log").split("\n")
        for name, text, why in (
            ("cut.log", "\n".join(lines[:2] + lines[3:]), "line 3 is refused: EPOCH 2 3"),
            ("other.log", "hello\n", "line 1 is refused: LINE 2"),
            ("old.log", "\n".join(lines[1:]), "line 1 is refused: FORMAT"),
        ):
            self.write(name, text)
            for words in (
                ["status", name],
                ["moves", name],
                ["compare", name, "shop", "describering-shop.txt"],
                ["whatif", name, "wishes.txt"],
                ["draw", "--log", name],
            ):
                with self.subTest(words):
                    status, _, said = cluster(*words)
                    self.assertEqual(status, 1)
                    self.assertIn(why, said)
        self.assertIn("no such log file", cluster("status", "nothing.log")[2])
        self.write("a.script", "register z dc1 rack1\n")
        for words in (["status", "/dev/full"], ["whatif", ".", "wishes.txt"], ["apply", "/dev/full", "a.script"]):
            self.assertEqual(cluster(*words)[0], 1)

    def test_a_torn_line_is_passed_over_and_stays(self):
        self.write("torn.log", self.read("shop.log") + '{"command"')
        before = self.read("torn.log")
        for words in (
            ["status", "torn.log"],
            ["whatif", "torn.log", "wishes.txt"],
            ["apply", "torn.log", "wishes.txt", "--dry-run"],
        ):
            cluster(*words)
            self.assertEqual(self.read("torn.log"), before)
