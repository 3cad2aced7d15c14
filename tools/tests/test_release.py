"""Tests of bin/tcm and bin/release, over a tree of one small crate and a program that is a script."""
import os
import shutil
import subprocess
import tempfile
import unittest

from tools.program import TOP

PROGRAM = """#!/bin/sh
[ "$1" != status ] || exit "$2"
[ "$1" != commit ] || { echo usage; exit "${4:-6}"; }
[ "$1" != mend2 ] || exit 6
echo "ran $*"
"""
RT = """#!/bin/sh
[ "$1" != version ] || { echo "kit 1"; exit; }
[ "$1" != run ] || { mkdir -p out && cp ../../program out/tcm_program; }
"""


class Tree(unittest.TestCase):
    """bin/tcm and bin/release in a tree of their own."""

    def setUp(self):
        self.top = tempfile.mkdtemp(prefix="release-test-")
        self.addCleanup(shutil.rmtree, self.top)
        for folder in ("bin", "crates/tcm_program/src", "rt"):
            os.makedirs(os.path.join(self.top, folder))
        shutil.copytree(os.path.join(TOP, "bin", "lib"), os.path.join(self.top, "bin", "lib"))
        for name in ("tcm", "release"):
            shutil.copy(os.path.join(TOP, "bin", name), os.path.join(self.top, "bin", name))
        self.write("crates.txt", "tcm_program:\n")
        self.write("crates/tcm_program/src/main.rt", "fn main() {}\n")
        self.write("program", PROGRAM, 0o755)
        self.write("rt/rt", RT, 0o755)

    def write(self, path, text, mode=0o644):
        """Writes a file of the tree."""
        with open(os.path.join(self.top, path), "w", encoding="utf-8") as it:
            it.write(text)
        os.chmod(os.path.join(self.top, path), mode)

    def run_bin(self, name, *words, with_rt=False):
        """Runs a command of bin/, and returns its status, what it printed, and what it said on standard error."""
        path = "/usr/bin:/bin" if not with_rt else f"{self.top}/rt:/usr/bin:/bin"
        run = subprocess.run(
            [os.path.join(self.top, "bin", name), *words],
            env={"PATH": path},
            stdin=subprocess.DEVNULL,
            stdout=subprocess.PIPE,
            stderr=subprocess.PIPE,
        )
        return run.returncode, run.stdout.decode(), run.stderr.decode()

    def release(self):
        """Builds the program and makes dist/."""
        self.assertEqual(self.run_bin("tcm", "--prove", with_rt=True)[0], 0)
        self.assertEqual(self.run_bin("release", with_rt=True)[0], 0)

    def test_without_a_program_it_says_what_to_do(self):
        status, out, said = self.run_bin("tcm", "gen")
        self.assertEqual((status, out), (125, ""))
        self.assertIn("there is no dist/tcm", said)

    def test_a_program_of_these_sources_runs_at_once(self):
        self.release()
        shutil.rmtree(os.path.join(self.top, "crates/tcm_program/out"))
        self.assertEqual(self.run_bin("tcm", "gen", "1 2"), (0, "ran gen 1 2\n", ""))
        os.symlink(os.path.join(self.top, "bin/tcm"), os.path.join(self.top, "bin/link"))
        self.assertEqual(self.run_bin("link", "gen")[:2], (0, "ran gen\n"))

    def test_a_program_of_other_sources_does_not_run(self):
        self.release()
        shutil.rmtree(os.path.join(self.top, "crates/tcm_program/out"))
        self.write("crates/tcm_program/src/main.rt", "fn main() { }\n")
        status, out, said = self.run_bin("tcm", "gen")
        self.assertEqual((status, out), (125, ""))
        self.assertIn("dist/tcm is of other sources than these", said)
        self.assertEqual(self.run_bin("tcm", "gen", with_rt=True)[:2], (0, "ran gen\n"))

    def test_silent_statuses_are_told(self):
        self.release()
        for status in range(10):
            code, out, said = self.run_bin("tcm", "status", str(status))
            self.assertEqual((code, out), (status, ""))
            self.assertEqual(said.count("\n"), 1 if status in (1, 2, 4, 5, 6) else 0, said)
        self.assertIn(
            "status 6: loading a file, or changing the log file, failed (a.log)",
            self.run_bin("tcm", "commit", "a.log", "c1")[2],
        )
        self.assertNotIn("a.log", self.run_bin("tcm", "commit", "a.log", "c1", "2")[2])
        self.assertIn("(a.log or b.log)", self.run_bin("tcm", "mend2", "a.log", "b.log", "c1")[2])

    def test_the_gate_sees_what_is_wrong_with_a_release(self):
        self.assertEqual(self.run_bin("release", "--check")[0], 1)
        self.assertEqual(self.run_bin("release", with_rt=True)[0], 1)
        self.release()
        self.assertEqual(self.run_bin("release", "--check", with_rt=True), (0, "", ""))
        self.write("crates/tcm_program/out/tcm_program", PROGRAM + "#\n", 0o755)
        self.assertIn("isn't byte for byte", self.run_bin("release", "--check", with_rt=True)[1])
        self.assertEqual(self.run_bin("release", "--check")[0], 0)
        self.write("crates/tcm_program/src/more.rt", "")
        self.assertIn("of other sources", self.run_bin("release", "--check")[1])
        self.write("dist/tcm", PROGRAM + "#\n", 0o755)
        self.assertIn("isn't the program that dist/tcm.txt names", self.run_bin("release", "--check")[1])
        self.assertEqual(self.run_bin("release", "--nothing")[0], 2)


if __name__ == "__main__":
    unittest.main()
