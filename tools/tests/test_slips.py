"""Tests of slips that bin/tcm refuses before the program writes, of what it says after a run, and of its help."""
import os
import re
import subprocess
import unittest

from tools.program import TOP
from tools.tests.cluster import needs_program
from tools.tests.installed import Installed, needs_strace

COMMIT = b"commit 1 register a dc1 r1\n"
HEADER = b'{"cluster":"c1","format":2}'


@needs_program
class Slips(Installed):
    """Files that aren't what the words say."""

    def assert_refused(self, name, says, *words):
        before = self.read(name)
        status, out, said = self.run_tcm(*words, script=COMMIT)
        self.assertEqual((status, out, said.count("\n")), (125, b"", 1), said)
        self.assertIn(says, said)
        self.assertEqual(self.read(name), before)

    def test_a_file_that_is_no_disk(self):
        self.write("text", b"secret")
        self.write("a.log", HEADER + b"\n")
        for words in (["commit", "x", "c1"], ["snapshot", "x", "0"], ["gen", "1", "1"]):
            self.assert_refused("text", "this is no disk", "on", "text", *words)
            self.assert_refused("a.log", "this is a log, and no disk", "on", "a.log", *words)
        self.assertEqual(self.run_tcm("--as-is", "on", "text", "commit", "x", "c1", script=COMMIT)[:2], (0, b"OK 1\n"))
        self.write("empty", b"")
        for disk in ("empty", "text", "absent"):
            self.assertEqual(self.run_tcm("on", disk, "commit", "y", "c1", script=COMMIT)[:2], (0, b"OK 1\n"))

    def test_a_disk_that_is_no_log(self):
        self.run_tcm("on", "a.disk", "commit", "x", "c1", script=COMMIT)
        self.assert_refused("a.disk", "this is a disk, and no log", "commit", "a.disk", "c1")

    def test_a_file_that_would_be_overwritten(self):
        for held in (b"secret", HEADER + b"x", b'{"entry":1', b'{"cluster":"c 1"', b"\xff\xfe", b"{\0", b"x" * 200):
            self.write("text", held)
            with self.subTest(held):
                self.assert_refused("text", "this is no log, and a run would overwrite it", "commit", "text", "c1")
        self.assertEqual(self.run_tcm("--as-is", "commit", "text", "c1", script=COMMIT)[:2], (0, b"OK 1\n"))

    def test_what_the_program_refuses_itself_is_left_to_it(self):
        for held in (b"secret\n", b"x" * 200 + b"\n"):
            self.write("text", held)
            self.assertEqual(self.run_tcm("commit", "text", "c1")[:2], (3, b"REFUSED 1 1 LINE 2\n"))
            self.assertEqual(self.read("text"), held)

    def test_a_torn_header_is_gone_on_with(self):
        for size in range(len(HEADER) + 1):
            self.write("a.log", HEADER[:size])
            self.assertEqual(self.run_tcm("commit", "a.log", "c1", script=COMMIT)[:2], (0, b"OK 1\n"))
        self.write("a.log", HEADER + b'\n{"comm')
        self.assertEqual(self.run_tcm("commit", "a.log", "c1", script=COMMIT)[:2], (0, b"OK 1\n"))

    def test_mend2_says_which_file_is_there(self):
        self.write("old", b"")
        for words, said in (
            (("old", "new"), ""),
            (("old", "new"), "old, which is read, is there; new, which is to be made, is there"),
            (("no", "new"), "no, which is read, isn't there; new, which is to be made, is there"),
            (("no", "none"), "no, which is read, isn't there; none, which is to be made, isn't there"),
        ):
            status, _, err = self.run_tcm("mend2", *words, "c1")
            self.assertEqual(status, 7 if said else 0)
            self.assertIn(said, err)

    @needs_strace
    def test_after_a_failed_sync_it_says_what_is_safe(self):
        self.run_tcm("on", "a.disk", "commit", "x", "c1")
        fails = ["strace", "-f", "-qq", "-o", "/dev/null", "-e", "inject=fdatasync:error=EIO:when=3+"]
        words = [*fails, self.tcm, "on", "a.disk", "commit", "x", "c1"]
        run = subprocess.run(words, cwd=self.folder, input=COMMIT, stdout=subprocess.PIPE, stderr=subprocess.PIPE)
        self.assertEqual(run.returncode, 6)
        said = run.stderr.decode()
        commands = re.search(r"device: (.*)", said[said.index("go on with a new disk") :])[1]
        commands = commands.replace(" LOG", " x").replace("NEW-DISK", "new.disk").replace("CLUSTER", "c1")
        commands = commands.replace("tcm disk", f"{TOP}/bin/disk").replace("tcm on", f"{self.tcm} on")
        run = subprocess.run(["sh", "-c", commands], cwd=self.folder, input=COMMIT, stdout=subprocess.PIPE)
        self.assertEqual((run.returncode, run.stdout), (0, b"OK 1\n"))


@needs_program
class Told(Installed):
    """Help and version."""

    def test_help_names_each_command_and_status_of_the_pages(self):
        status, out, _ = self.run_tcm("--help")
        self.assertEqual(status, 0)
        for page, wanted in (("language.md", r"^\| `(\w[^`]*)` \| "), ("operators.md", r"^\| (\d+) \| ")):
            with open(os.path.join(TOP, "docs", page), encoding="utf-8") as it:
                part = it.read().split("## Commands" if page == "language.md" else "## After each status")[1]
            named = re.findall(wanted, part.split("\n## ")[0], re.M)
            self.assertTrue(len(named) > 8)
            for it in named:
                self.assertRegex(out.decode(), rf"(?m)^  {re.escape(it.replace('on DISK ..', 'on DISK COMMAND ..'))}  ")

    def test_no_word_is_taken_from_the_program(self):
        for words in ([], ["help"], ["-h"], ["version"], ["commit", "--help"]):
            status, out, _ = self.run_tcm(*words)
            self.assertEqual((status, out[:10]), (2, b"usage: tcm"), words)

    def test_each_script_has_help_with_an_example(self):
        for name in sorted(it for it in os.listdir(os.path.join(TOP, "bin")) if it not in ("lib", "__pycache__")):
            words = [os.path.join(TOP, "bin", name), "--help"]
            run = subprocess.run(words, stdout=subprocess.PIPE, stdin=subprocess.DEVNULL)
            with self.subTest(name):
                self.assertEqual(run.returncode, 0)
                self.assertRegex(run.stdout.decode(), r"\bexamples?:|tcm commit < join.script")

    def test_one_version(self):
        with open(os.path.join(TOP, "VERSION"), encoding="ascii") as it:
            version = it.read().strip()
        clone = os.path.join(TOP, "bin")
        for script in ("tcm", "cluster"):
            out = subprocess.run([os.path.join(clone, script), "--version"], stdout=subprocess.PIPE).stdout.decode()
            self.assertEqual(out.splitlines()[0], f"{script} {version}")
        run = subprocess.run([os.path.join(clone, "tcm"), "--version"], stdout=subprocess.PIPE)
        self.assertRegex(run.stdout.decode(), r"\Atcm [\d.]+\ntoolchain .+\nprogram [0-9a-f]{64}\ncommit .+\n\Z")


if __name__ == "__main__":
    unittest.main()
