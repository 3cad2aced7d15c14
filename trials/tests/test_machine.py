"""Tests of the reference machine: what docs/definitions.md derives by hand, and the scripts of examples/."""
from __future__ import annotations

import glob
import os
import unittest
from itertools import combinations
from typing import Dict, List

from trials.machine.answers import need_of_reads, need_of_writes
from trials.machine.image import Image
from trials.machine.placement import placed, sets_at
from trials.machine.runs import given, run_on
from trials.machine.session import Session
from trials.machine.terms import GREATEST, LEAST, in_arc, replication_of, rows_of
from trials.rows import TOP

FOUR = [
    *(f"register {name} dc1 r1" for name in "abcd"),
    *(f"unsafe-join {at + 1} {100 * at}" for at in range(4)),
    "keyspace ks simple 3",
    "register e dc1 r1",
]
JOIN = [*FOUR, "prepare-join 5 150", "start-join 5", "mid-join 5", "finish-join 5"]


def session_of(commands: List[str]) -> Session:
    """Returns the session after commands, each accepted."""
    session = Session()
    for number, it in enumerate(commands, 1):
        answer = session.answer(f"commit {number} {it}".encode())
        assert answer == [f"OK {number}"], (it, answer)
    return session


def meet(one: Image, other: Image, token: int) -> bool:
    """Returns whether each read quorum of an image has a node in common with each write quorum of another."""
    keyspace = one.keyspaces[0].replication
    total = keyspace.total()
    read, written = sets_at(one, keyspace, token), sets_at(other, keyspace, token)
    reads = combinations(sorted(read[0]), need_of_reads(total))
    writes = list(combinations(sorted(written[1]), need_of_writes(total, written)))
    return all(set(some) & set(more) for some in reads for more in writes)


class ByHand(unittest.TestCase):
    """What the pages derive by hand."""

    def test_arcs_and_rows(self) -> None:
        self.assertEqual([it for it in (50, 100, 150, 200, 250) if in_arc(200, 100, it)], [50, 200, 250])
        self.assertEqual(rows_of([LEAST, GREATEST]), [(None, LEAST), (LEAST, GREATEST)])
        self.assertEqual(rows_of([]), [(None, None)])

    def test_replications(self) -> None:
        both = replication_of(["topology", "dc2:2", "dc1:3"])
        self.assertEqual(both and both.text(), "topology dc1:3 dc2:2")
        self.assertEqual([replication_of(["simple", it]) for it in ("03", "17")], [None, None])

    def test_replicas_of_racks_and_repeats(self) -> None:
        racks = [it.replace("r1", "rb" if it.startswith("register d") else "ra") for it in FOUR[:8]]
        image = session_of(racks).image
        replication = replication_of(["topology", "dc1:3"])
        assert replication is not None
        wanted = {0: {1, 2, 4}, 100: {2, 3, 4}, 200: {1, 3, 4}}
        for token, replicas in wanted.items():
            self.assertEqual(placed(replication, image.by_id, image.low, token), replicas)

    def test_sets_and_quorums_of_a_join(self) -> None:
        images = session_of(JOIN).images[-5:]
        wanted = [([2, 3, 4], [2, 3, 4])] * 2 + [([2, 3, 4], [2, 3, 4, 5]), ([2, 3, 5], [2, 3, 4, 5]), ([2, 3, 5],) * 2]
        for image, (reads, writes) in zip(images, wanted):
            came = sets_at(image, image.keyspaces[0].replication, 50)
            self.assertEqual([sorted(it) for it in came], [reads, writes])
        for one, other in zip(images, images[1:]):
            for token in one.cuts:
                self.assertTrue(meet(one, other, token) and meet(other, one, token))
        self.assertFalse(meet(images[3], images[1], 50))

    def test_refusals(self) -> None:
        session = session_of(JOIN[:-2])
        wanted: Dict[str, str] = {
            "finish-join 5": "WRONG-STEP join STARTED",
            "mid-join 1": "NO-SEQUENCE",
            "mid-join 77": "NO-NODE",
        }
        for command, refusal in wanted.items():
            self.assertEqual(session.answer(f"commit 99 {command}".encode()), [f"NO {refusal}"])

    def test_the_ranges_of_leaves(self) -> None:
        six = [*(f"register n{it} dc1 r1" for it in range(6)), *(f"unsafe-join {it + 1} {100 * it}" for it in range(6))]
        for first, second in ((2, 4), (4, 2)):
            session = session_of([*six, "keyspace ks simple 2", f"prepare-leave {first}"])
            answer = session.answer(f"commit 99 prepare-leave {second}".encode())
            self.assertEqual(answer, [f"NO LOCKED {first} 100"])


class Examples(unittest.TestCase):
    """The scripts of examples/, as docs/examples.md shows them."""

    def test_scripts_show_what_the_page_shows(self) -> None:
        with open(os.path.join(TOP, "docs", "examples.md"), encoding="utf-8") as it:
            shown = {line.strip() for line in it}
        for path in glob.glob(os.path.join(TOP, "examples", "*.script")):
            with open(path, "rb") as script:
                data = script.read()
            ended = run_on({}, [b"commit"], given(data))
            lines = [line for answer in ended.answers for line in answer]
            self.assertEqual(ended.status, 0)
            self.assertGreater(len([it for it in lines if it in shown]), len(lines) // 5)

    def test_a_generated_script(self) -> None:
        lines = run_on({}, [b"gen", b"7", b"0"], given(b"")).answers[0]
        self.assertEqual(lines, ["GEN 7 0", "LINES 101", "OK 50", "EPOCH 50", "FOLLOWER 50"])


if __name__ == "__main__":
    unittest.main()
