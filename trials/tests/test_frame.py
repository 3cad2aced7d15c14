"""Tests of the frame: cases and their seeds, what is kept of a difference, statuses, rows and the page."""
from __future__ import annotations

import contextlib
import io
import os
import shutil
import tempfile
import unittest
from unittest import mock

from trials import main, rows
from trials.kind import Case, Kind
from trials.trial import Outcome, Plan, tried


def even(case: Case) -> str:
    """A case whose seed has to be even."""
    case.count += 10
    case.cover("even" if case.seed % 2 == 0 else "odd")
    case.write("file", b"here")
    return "" if case.seed % 2 == 0 else f"{case.seed} is odd, {case.random.random()}"


def broken(_: Case) -> str:
    """A case that has a fault of its own."""
    raise ValueError("broken")


def none(_: Case) -> str:
    """A case that never differs."""
    return ""


class InFolder(unittest.TestCase):
    """A test with a folder for what is kept."""

    def setUp(self) -> None:
        self.kept = tempfile.mkdtemp(prefix="trials-test-")
        self.addCleanup(shutil.rmtree, self.kept)

    def tried(self, kind: Kind, count: int, seed: int = 0) -> Outcome:
        """Tries a kind."""
        return tried(kind, Plan(seed, 0.0, count, "/bin/true", self.kept))

    def read(self, *names: str) -> str:
        """Returns the text of a file that was kept."""
        with open(os.path.join(self.kept, *names), encoding="utf-8") as it:
            return it.read()


class Cases(InFolder):
    """Cases of a kind."""

    KIND = Kind("even", "looks at seeds", "looks", even, frozenset({"even", "odd", "neither"}), 40)

    def test_a_difference_is_kept_with_the_command_that_repeats_it(self) -> None:
        outcome = self.tried(self.KIND, 20)
        self.assertEqual((outcome.cases, outcome.count), (2, 20))
        self.assertEqual([os.path.basename(it) for it in outcome.differences], ["even-1"])
        self.assertIn("--seed 1 --count 1", self.read("even-1", "repeat"))
        self.assertEqual(self.read("even-1", "file"), "here")
        said = self.read("even-1", "difference")
        self.tried(self.KIND, 1, seed=1)
        self.assertEqual(self.read("even-1", "difference"), said)

    def test_many_differences_end_a_kind(self) -> None:
        self.assertEqual(len(self.tried(self.KIND, 1000).differences), 5)

    def test_a_fault_of_a_case_is_a_difference(self) -> None:
        self.assertTrue(self.tried(Kind("broken", "", "", broken), 1, seed=7).failed())
        self.assertIn("ValueError: broken", self.read("broken-7", "difference"))

    def test_what_has_to_come_up_fails_once_enough_was_tried(self) -> None:
        kind = Kind("none", "", "cases", none, frozenset({"never"}), 40)
        self.assertEqual(self.tried(kind, 1).uncovered(), ["never"])
        self.assertFalse(self.tried(kind, 39).failed())
        self.assertTrue(self.tried(kind, 40).failed())

    def test_a_kind_that_cannot_run_is_skipped(self) -> None:
        outcome = self.tried(Kind("none", "", "cases", none, missing=lambda: "no strace"), 1)
        self.assertEqual((outcome.cases, outcome.failed()), (0, False))
        self.assertIn("skipped: no strace", main.line_of(outcome))


class Words(InFolder):
    """The command line."""

    def main(self, *words: str) -> int:
        """Runs the command line with two kinds."""
        kinds = {"even": Cases.KIND, "none": Kind("none", "", "cases", none)}
        words = (*words, "--program", "/bin/true", "--kept", self.kept)
        with mock.patch.object(main, "all_kinds", return_value=kinds):
            with contextlib.redirect_stdout(io.StringIO()), contextlib.redirect_stderr(io.StringIO()):
                try:
                    return main.main(words)
                except SystemExit as it:
                    return int(it.code or 0)

    def test_statuses(self) -> None:
        self.assertEqual(self.main("none", "--count", "3"), 0)
        self.assertEqual(self.main("none", "even", "--count", "20", "--seed", "0"), 1)
        self.assertEqual(self.main("odd"), 2)

    def test_each_module_has_a_kind(self) -> None:
        for name, kind in main.all_kinds().items():
            self.assertEqual((name, bool(kind.help)), (kind.name, True))


class Rows(InFolder):
    """Rows of what was tried."""

    def test_rows_are_kept_and_shown(self) -> None:
        path, page, program = (os.path.join(self.kept, it) for it in ("rows.csv", "page.md", "program"))
        with open(program, "wb") as it:
            it.write(b"program")
        name = rows.name_of(program)
        with open(page, "w", encoding="utf-8") as text:
            text.write("\n".join(["# Trials", "", *rows.table([], name), "", "The end.", ""]))
        outcome = Outcome(Kind("none", "", "cases", none), 7, count=1234, seconds=60.0)
        with mock.patch.multiple(rows, PAGE=page, ROWS=path, RELEASE=program):
            rows.add([outcome], program)
            rows.add([outcome], "/bin/true")
            self.assertEqual(rows.faults_of_page(["kills"]), ["docs/trials.md:1: no row with the kind kills"])
            self.assertEqual(len(rows.read_rows()), 2)
        lines = self.read("page.md").splitlines()
        self.assertEqual(lines[4][15:], "none | 1,234 cases | 1.0 | 7 | right |")
        self.assertEqual(lines[5:], ["", "The end."])


if __name__ == "__main__":
    unittest.main()
