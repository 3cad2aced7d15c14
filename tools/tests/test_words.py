"""Tests of the command line: wrong words, help, files that are missing or empty, and pipes that are closed."""
import os
import subprocess
import sys
import tempfile
import unittest

from tools.program import TOP
from tools.tests.cluster import InTutorial, cluster, command, needs_program

VERBS = ("import", "status", "compare", "whatif", "moves", "apply", "lint", "answers", "draw")


class Words(unittest.TestCase):
    """Words of the command line."""

    def test_wrong_words_have_status_2(self):
        wrong = [
            [], ["nothing"], ["--log"], *([it, "--nothing"] for it in VERBS), *([it] for it in VERBS if it != "draw")
        ]
        for words in [
            *wrong,
            ["status", "a", "b"],
            ["status", "a", "@01"],
            ["import", "-", "-", "--log", "x", "--cluster", "c"],
            ["import", "a", "b", "--log", "x"],
            ["import", "a", "b", "--log", "x", "--cluster", "c 1"],
            ["apply", "a", "b", "--cluster", ""],
            ["draw", "x"],
            ["import", "a", "b"],
        ]:
            with self.subTest(words):
                status, out, said = cluster(*words)
                self.assertEqual((status, out), (2, ""))
                self.assertIn("usage: cluster", said)

    def test_each_verb_has_help_with_an_example(self):
        for verb in VERBS:
            status, out, said = cluster(verb, "--help")
            self.assertEqual((status, said), (0, ""))
            self.assertIn("bin/cluster " + verb, out)
            self.assertIn(verb, cluster("--help")[1])
        self.assertRegex(cluster("--version")[1], r"^cluster \d+\.\d+\.\d+\n$")

    def test_files_that_are_missing_or_empty_are_refused(self):
        with tempfile.TemporaryDirectory() as folder:
            empty, no, binary = (os.path.join(folder, it) for it in ("empty", "no", "binary"))
            with open(empty, "wb"), open(binary, "wb") as it:
                it.write(bytes(range(256)))
            for path in (empty, no, binary, folder):
                for words in (
                    ["import", path, path, "--log", no + ".log", "--cluster", "c1"],
                    ["compare", no, "k", path],
                    ["whatif", no, path],
                    ["draw", "--answers", path],
                ):
                    with self.subTest(words):
                        status, out, said = cluster(*words)
                        self.assertEqual((status, out), (1, ""))
                        self.assertRegex(said, "^cluster " + words[0] + ": ")

    def test_without_a_program_it_says_so(self):
        env = {**os.environ, "TCM": "/no/such/program"}
        ended = command("answers", os.path.join(TOP, "examples", "join.script"), env=env, stdout=subprocess.PIPE)
        self.assertEqual((ended.returncode, ended.stdout), (1, b""))
        self.assertIn(b"/no/such/program can't be run", ended.stderr)


@needs_program
class Pipes(InTutorial):
    """Pipes that are closed."""

    def test_a_closed_pipe_is_quiet(self):
        for words in (
            ["status", "shop.log"],
            ["whatif", "shop.log", "wishes.txt"],
            ["draw", "--log", "shop.log"],
            ["compare", "shop.log", "shop", "describering-shop.txt"],
            ["--help"],
            ["lint", "ring.txt"],
        ):
            read, write = os.pipe()
            os.close(read)
            with self.subTest(words):
                self.assertEqual(command(*words, stdout=write).stderr, b"")
            os.close(write)

    def test_a_link_to_the_command_works(self):
        os.symlink(os.path.join(TOP, "bin", "cluster"), "here")
        ended = subprocess.run([sys.executable, "here", "status", "shop.log"], stdout=subprocess.PIPE)
        self.assertEqual(ended.returncode, 0)


if __name__ == "__main__":
    unittest.main()
