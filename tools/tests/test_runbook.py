"""Tests of runbooks: the steps of each kind of movement, their tokens and sources, and that the log takes their commands."""
from __future__ import annotations

import re
import unittest
from typing import List

from tools.errors import Refused
from tools.runbook.loads import read_loads
from tools.runbook.page import page_of, size_said
from tools.runbook.recipes import steps_of
from tools.runbook.steps import Stream, Task
from tools.runbook.versions import VERSIONS
from tools.tests.cluster import YES, InTutorial, cluster, needs_program

JOIN = Task("join", "n5", "dc1", "rack1", (-7, 9), streams=(Stream("n5", "n1", ("ks",), 2**62, True),), cleanup=("n1",))
REPLACE = Task("replace", "n5", "dc1", "rack1", (1, 2, 3), gone="n4", gone_is_down=True)
LEAVE = Task("leave", "n4", "dc1", "rack1")
MOVE = Task("move", "n4", "dc1", "rack1", (-9,), cleanup=("n2",))


def said(task: Task, version: str = "4.1") -> str:
    """Returns the runbook of one movement."""
    return "\n".join(page_of("A plan", [[task]], VERSIONS[version], "bin/cluster apply a.log plan.script"))


def records_in(page: str) -> List[str]:
    """Returns the commands of the log that a runbook has."""
    return [line for block in re.findall(r"In the log:\n\n```text\n(.*?)```", page, re.S) for line in block.splitlines()]


class Recipes(unittest.TestCase):
    """The steps of each kind."""

    def test_a_join_has_its_tokens(self) -> None:
        page = said(JOIN)
        for word in ("num_tokens: 2", "initial_token: -7,9", "auto_bootstrap: true", "On n1:\n\n```sh\nnodetool cleanup"):
            self.assertIn(word, page)
        self.assertEqual(records_in(page), ["prepare-join n5 -7 9", "start-join n5", "mid-join n5", "finish-join n5"])

    def test_the_first_node_of_a_datacenter_is_rebuilt(self) -> None:
        page = said(Task("join", "n9", "dc2", "r", (1,), opens_dc=True))
        for word in ("auto_bootstrap: false", "nodetool rebuild -- DATACENTER", "ALTER KEYSPACE"):
            self.assertIn(word, page)

    def test_a_replace_names_the_dead_node(self) -> None:
        page = said(REPLACE)
        self.assertIn("-Dcassandra.replace_address_first_boot=n4", page)
        self.assertIn("nodetool repair --full", page)
        self.assertNotIn("nodetool drain", page)
        self.assertIn("nodetool drain", said(Task("replace", "n5", "dc1", "rack1", (1,), gone="n4")))

    def test_a_leave_depends_on_whether_the_node_is_up(self) -> None:
        self.assertIn("On n4:\n\n```sh\nnodetool decommission", said(LEAVE))
        gone = said(Task("leave", "n4", "d", "r", node_is_down=True, streams=(Stream("n2", "n3", ("k",), 1, False),)))
        self.assertIn("nodetool removenode HOST_ID", gone)
        self.assertIn("On n2:\n\n```sh\nnodetool repair --full", gone)

    def test_a_move_has_its_token_behind_two_hyphens(self) -> None:
        self.assertIn("nodetool move -- -9\n", said(MOVE))

    def test_only_steps_that_are_left_are_recorded(self) -> None:
        for phase, left in (("PREPARED", ["start", "mid", "finish"]), ("STARTED", ["mid", "finish"]), ("MID", ["finish"])):
            page = said(Task("leave", "n4", "dc1", "rack1", phase=phase))
            self.assertEqual(records_in(page), [f"{it}-leave n4" for it in left])

    def test_each_step_says_when_to_go_on(self) -> None:
        for version in VERSIONS.values():
            for task in (JOIN, REPLACE, LEAVE, MOVE):
                self.assertTrue(all(step.go_on for step in steps_of(task, version)))

    def test_versions_say_what_they_lack(self) -> None:
        self.assertIn("no epochs here", said(JOIN, "5.0"))
        self.assertIn("one after another", said(JOIN, "4.1"))
        self.assertIn("nodetool cms describe", said(JOIN, "cep-21"))
        self.assertIn("at the same time", said(JOIN, "cep-21"))


class Sizes(unittest.TestCase):
    """The Load of nodes, and sizes."""

    def test_status_and_ring_have_loads(self) -> None:
        status = ["--  Address   Load        Tokens", "UN  10.0.0.1  1.5 GiB  16  ?  id  rack1", "DN  10.0.0.2  ?  16"]
        self.assertEqual(read_loads(status, "f"), {"10.0.0.1": 3 * 2**29})
        ring = ["10.0.0.1  rack1  Up  Normal  108.5 KiB  33%  -5", "10.0.0.1  rack1  Up  Normal  108.5 KiB  33%  7"]
        self.assertEqual(read_loads(ring, "f"), {"10.0.0.1": 111104})
        self.assertRaises(Refused, read_loads, ["nothing"], "f")

    def test_sizes_are_short(self) -> None:
        self.assertEqual([size_said(it) for it in (0, 1023, 1536, 200 * 2**30)], ["0 B", "1023 B", "1.5 KiB", "200 GiB"])


@needs_program
class Runbooks(InTutorial):
    """whatif --runbook and moves --runbook."""

    def test_the_log_takes_the_commands_of_a_plan(self) -> None:
        status, page, _ = cluster("whatif", "shop.log", "wishes.txt", "--script", "plan.script", "--runbook", "4.1")
        self.assertEqual(status, 0)
        planned = [it for it in self.read("plan.script").splitlines() if not it.startswith(("#", "register "))]
        self.assertEqual(records_in(page), planned)

    def test_a_dead_source_is_marked(self) -> None:
        page = cluster("whatif", "shop.log", "wishes.txt", "--runbook", "5.0", "--load", "ring.txt")[1]
        replace, join = page.split("### join")
        self.assertIn("(not the strict source: not proved)", replace.split("### replace")[1])
        self.assertNotIn("not proved", join)
        self.assertRegex(join, r"\| 10\.0\.0\.6 \| 10\.0\.0\.2 \| shop \| 50\.00% \| [\d.]+ KiB \|")

    def test_a_movement_in_flight_has_the_steps_that_are_left(self) -> None:
        self.write("join.script", "register n dc1 rack2\nprepare-join n 5\nstart-join n\n")
        cluster("apply", "shop.log", "join.script", *YES)
        page = cluster("moves", "shop.log", "--runbook", "cep-21")[1]
        self.assertEqual(records_in(page), ["mid-join n", "finish-join n"])
