"""Tests of the kinds random, mangled and limits: some cases of each, and the texts of faults."""
from __future__ import annotations

import os
import tempfile
import unittest
from typing import Callable, Sequence

from trials.both import Both, first_difference, said_in, word_of
from trials.kind import Case, Ended, Kind
from trials.kinds import limits, mangled, random_lines
from trials.machine.runs import Run
from trials.rows import TOP
from trials.tests.faults import FAULTS, noticed

PROGRAM = os.environ.get("TCM", "")
needs_program = unittest.skipUnless(PROGRAM, "TCM names no program")


@needs_program
class Cases(unittest.TestCase):
    """Cases with the program."""

    def run_all(self, cases: Sequence[Callable[[Both], None]], seeds: int) -> None:
        """Runs each of some cases by some seeds."""
        for one in cases:
            for seed in range(seeds):
                with tempfile.TemporaryDirectory() as folder:
                    both = Both(Case(seed, PROGRAM, folder))
                    one(both)
                    self.assertEqual(both.differences, [], one.__name__)

    def test_random(self) -> None:
        slow = (random_lines.full, random_lines.epochs)
        self.run_all([it for _, it in random_lines.CASES if it not in slow], 8)

    def test_mangled(self) -> None:
        self.run_all((mangled.log, mangled.replay, mangled.state, mangled.disk), 8)

    def test_limits(self) -> None:
        slow = [limits.NAMES.index(it) for it in ("rounds", "bytes_of_files", "states", "tokens_full", "epochs_full")]
        for turn in range(len(limits.NAMES)):
            if turn not in slow:
                self.run_case(limits.KIND, turn)

    def test_each_kind_runs_a_case(self) -> None:
        self.run_case(random_lines.KIND, 3)
        self.run_case(mangled.KIND, 3)

    def run_case(self, kind: Kind, seed: int) -> None:
        """Runs a case of a kind."""
        with tempfile.TemporaryDirectory() as folder:
            case = Case(seed, PROGRAM, folder)
            self.assertEqual((kind.case(case), case.count > 0), ("", True), seed)


class Comparing(unittest.TestCase):
    """What differs, and what came up."""

    def test_what_differs_is_told(self) -> None:
        with tempfile.TemporaryDirectory() as folder:
            both = Both(Case(1, "/bin/true", folder))
            both.put(b"kept", b"one\n")
            both.put(b"gone", b"")
            os.remove(both.case.path("gone"))
            both.case.write("kept", b"two\n")
            both.case.write("new", b"")
            both.compare([b"commit"], b"", Run(0, [["OK 1"]]), Ended(3, b"OK 2\n"))
            self.assertEqual(len(both.differences), 1)
            for said in ("b'OK 1', the program b'OK 2'", "status 0", "b'gone': absent", "b'kept': line 1", "b'new'"):
                self.assertIn(said, both.differences[0])

    def test_words_and_answers(self) -> None:
        self.assertEqual([word_of(it) for it in (b"commit 1 cancel 2", b"place @1 ks", b"commit", b"x y")],
                         ["cancel", "place", "another line", "another line"])
        self.assertEqual([said_in(it) for it in ("NO LOCKED 1 2", "REPLY 1 image 256 entries 1", "OK 1")],
                         ["LOCKED", "REPLY image", "OK"])
        self.assertIn("nothing", first_difference(b"a\n", b"a"))


class Faults(unittest.TestCase):
    """The faults that are put into the machine."""

    def test_each_stands_where_it_is_put(self) -> None:
        for name, (module, right, wrong) in FAULTS.items():
            with open(os.path.join(TOP, "trials", "machine", f"{module}.py"), encoding="utf-8") as it:
                self.assertTrue(right in it.read(), name)
            self.assertNotEqual(right, wrong)

    @needs_program
    def test_one_is_noticed(self) -> None:
        self.assertTrue(noticed("two refusals in another order"))


if __name__ == "__main__":
    unittest.main()
