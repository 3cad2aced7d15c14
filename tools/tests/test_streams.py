"""Tests of odd inputs and of standard streams that are closed or full: a message in the place of a traceback."""
import os
import subprocess
import tempfile
import unittest

from tools.program import TOP
from tools.tests.cluster import cluster, command

SCRIPT = os.path.join(TOP, "examples", "join.script")
CLOSED = 'exec {}\nexec python3 "$0" "$@"'


def closed(redirection, *words):
    """Runs bin/cluster under a shell that closes or redirects a standard stream first."""
    command_words = ["sh", "-c", CLOSED.format(redirection), os.path.join(TOP, "bin", "cluster"), *words]
    return subprocess.run(command_words, stdout=subprocess.PIPE, stderr=subprocess.PIPE)


class Streams(unittest.TestCase):
    """Standard streams."""

    def test_a_full_or_closed_output_is_told(self):
        for redirection, why in ((">/dev/full", b"No space left"), (">&-", b"standard output is closed")):
            for words in (["lint", SCRIPT], ["--help"]):
                ended = closed(redirection, *words)
                self.assertEqual((ended.returncode, ended.stderr.count(b"\n")), (1, 1), ended.stderr)
                self.assertIn(why, ended.stderr)

    def test_other_streams_may_be_closed(self):
        for redirection in ("<&-", "2>&-", "<&- 2>&-"):
            ended = closed(redirection, "lint", SCRIPT)
            self.assertEqual((ended.returncode, ended.stderr), (0, b""))
            ended = closed(redirection, "lint", "/no/such")
            self.assertEqual((ended.returncode, ended.stdout), (1, b""))

    def test_a_locale_changes_nothing(self):
        with tempfile.TemporaryDirectory() as folder:
            name = os.path.join(os.fsencode(folder), b"\xff\xc3\xa9\x1b[31m.script")
            with open(name, "wb") as it:
                it.write(b"nodes @0\n\xff\n")
            said = []
            for locale in ("C", "C.utf8", "POSIX", "no_such"):
                for coding in ("ascii", "utf-8", "latin-1", "ascii:strict"):
                    env = {**os.environ, "LC_ALL": locale, "PYTHONIOENCODING": coding, "PYTHONUTF8": "0"}
                    ended = command("lint", name, env=env, stdout=subprocess.PIPE)
                    self.assertEqual((ended.returncode, ended.stderr), (1, b""))
                    missing = command("lint", name + b"x", env=env, stdout=subprocess.PIPE)
                    self.assertEqual(missing.returncode, 1)
                    self.assertNotIn(b"Traceback", missing.stderr)
                    self.assertNotIn(b"\x1b", missing.stderr)


class Inputs(unittest.TestCase):
    """Files and words."""

    def test_a_device_without_an_end_is_refused(self):
        for words in (["lint", "/dev/zero"], ["whatif", "no.log", "/dev/zero"], ["apply", "no.log", "/dev/zero"]):
            status, out, said = cluster(*words)
            self.assertEqual((status, out), (1, ""))
            self.assertIn("no input is so long", said)

    def test_memory_that_runs_out_is_told(self):
        words = ["sh", "-c", 'ulimit -v 200000\nexec python3 "$0" lint /dev/zero', os.path.join(TOP, "bin", "cluster")]
        ended = subprocess.run(words, stdout=subprocess.PIPE, stderr=subprocess.PIPE)
        self.assertEqual((ended.returncode, ended.stderr), (1, b"cluster lint: memory ran out\n"))

    def test_messages_are_short_and_show_no_control_characters(self):
        for words in (["lint", "x" * 5000], ["lint", "\x1b[31m"], ["lint", "a", "y\x1b" * 3000], ["\x1b" * 5000]):
            status, _, said = cluster(*words)
            self.assertIn(status, (1, 2))
            self.assertNotIn("\x1b", said)
            self.assertLess(max(map(len, said.splitlines())), 700)


if __name__ == "__main__":
    unittest.main()
