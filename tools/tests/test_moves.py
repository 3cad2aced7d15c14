"""Tests of the streams of movements in flight, against the stream plans of the program."""
import json
import random
from unittest import mock

from tools import moves
from tools.answers import read_plan
from tools.log import state
from tools.program import run
from tools.terms import GREATEST, LEAST
from tools.tests.cluster import InTutorial, cluster, needs_program
from tools.tests.drawn import drawn_log


def holds(it, token):
    """Returns whether a range of the JSON has a token; it may go past the end of the ring."""
    left = LEAST - 1 if it["left"] is None else int(it["left"])
    right = GREATEST if it["right"] is None else int(it["right"])
    return left < token <= right if left < right else token > left or token <= right


def names_in(now, ids):
    """Returns the names of nodes."""
    return [now.by_id[it].name for it in ids]


@needs_program
class Moves(InTutorial):
    """moves."""

    def checked(self, log, down=()):
        """Checks the rows of moves against those of the program, and returns how many there are."""
        now, count = state(log), 0
        gone = [word for it in down for word in ("--down", it)]
        shown = {it["node"]: it for it in json.loads(cluster("moves", log, "--json", *gone)[1])}
        self.assertEqual(list(shown), names_in(now, [it.node for it in now.movements]))
        for movement in now.movements:
            for group in shown[now.by_id[movement.node].name]["streams"]:
                rows = read_plan(run(["plan", log, str(movement.node), group["keyspaces"][0]]).lines)
                before = self.placed_before(now.place(group["keyspaces"][0]), rows)
                width = sum(it.width for it in rows) / 2**64
                self.assertAlmostEqual(group["share"], width, 5)
                for row in rows:
                    token = GREATEST if row.right is None else row.right
                    found = [it for it in group["ranges"] if holds(it, token) and it["to"] == names_in(now, [row.to])]
                    self.assertEqual(len(found), 1, (log, row))
                    self.check_row(found[0], row, now, before[row.right], down)
                    count += 1
        return count

    def placed_before(self, placement, rows):
        """Returns who is placed in each row before the movement."""
        added = {}
        for row in rows:
            added.setdefault(row.right, []).append(row.to)
        return {it.right: [n for n in it.writes if n not in added.get(it.right, [])] for it in placement.rows}

    def check_row(self, said, row, now, before, down):
        """Checks the sources of a row."""
        up = [it for it in names_in(now, before) if it not in down]
        near = [it for it in up if now.by_name[it].dc == now.by_id[row.to].dc]
        if row.strict is None:
            wanted = ("any", [it for it in names_in(now, row.any) if it not in down], [])
        elif now.by_id[row.strict].name in down:
            wanted = ("not proved", near or up, names_in(now, [row.strict]))
        else:
            wanted = ("strict", names_in(now, [row.strict]), names_in(now, [row.strict]))
        self.assertEqual((said["source"], said["from"], said["losing"]), wanted)

    def test_rows_are_those_of_the_program(self):
        draw, count = random.Random(4), 0
        for i in range(12):
            log = f"drawn{i}.log"
            if drawn_log(log, draw):
                count += self.checked(log)
                count += self.checked(log, names_in(state(log), [1, 3]))
        self.assertGreater(count, 100)

    def test_the_strict_source_may_be_in_another_datacenter(self):
        commands = "register a dc1 r1,register b dc1 r1,register c dc2 r1,register d dc1 r1,unsafe-join 1 0"
        commands += ",unsafe-join 2 100,unsafe-join 3 200,keyspace k simple 2,prepare-join 4 50,start-join 4"
        script = "".join(f"commit {i} {it}\n" for i, it in enumerate(commands.split(","), 1))
        run(["commit", "two.log", "two"], script.encode())
        self.assertRegex(cluster("moves", "two.log")[1], r"\(0,50\] +\S+ +d +c +c\n")
        self.assertNotIn("not proved", cluster("moves", "two.log")[1])
        self.assertRegex(cluster("moves", "two.log", "--down", "c")[1], r"\(0,50\] +\S+ +d +b \(not proved\) +c\n")
        self.assertIn("NO SOURCE IS UP", cluster("moves", "two.log", "--down", "c", "--down", "b")[1])

    def test_what_is_shown_is_of_one_look(self):
        drawn_log("a.log", random.Random(9))
        before = cluster("moves", "a.log")[1]
        looked = moves.state

        def grown(log, **more):
            now = looked(log, **more)
            with open("a.log", "ab") as it:
                it.write(b"more\n")
            return now

        with mock.patch.object(moves, "state", grown):
            self.assertEqual(cluster("moves", "a.log")[1], before)
