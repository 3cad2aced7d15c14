"""Tests of bin/definitions: the definitions that a contract reaches, in an order for reading."""
import os
import re
import subprocess
import sys
import unittest

from tools.program import TOP

COMMIT_TO = ("tcm_session", "run", "commit_to")
HEAD = re.compile(r"-- ======== (crates/\S+\.antt)")


def definitions(*words):
    """Returns the status of the command, and the lines that it prints."""
    ended = subprocess.run(
        [sys.executable, os.path.join(TOP, "bin", "definitions"), *words], stdout=subprocess.PIPE, stderr=subprocess.PIPE
    )
    return ended.returncode, ended.stdout.decode().splitlines()


def paragraphs_of(lines):
    """Returns the definitions of a text, each as its lines, without the names of files."""
    return [it.splitlines() for it in "\n".join(lines).split("\n\n") if it and not HEAD.match(it)]


class Definitions(unittest.TestCase):
    """A test of what the command prints."""

    def test_the_text_is_what_is_counted(self):
        text = definitions("--text", *COMMIT_TO)[1]
        lines = [it for it in text if it and not HEAD.match(it)]
        plain = [it for it in lines if not it.lstrip().startswith("--")]
        total = [it for it in definitions(*COMMIT_TO)[1] if re.search(r" lines of \d+ definitions, ", it)]
        self.assertEqual([it.split()[:2] for it in total], [[str(len(plain)), str(len(lines))]])
        self.assertEqual(total[0].split()[4], str(len(paragraphs_of(text))))

    def test_the_text_goes_down_from_the_outcome_or_up_to_it(self):
        down, up = (paragraphs_of(definitions("--text", *it, *COMMIT_TO)[1]) for it in ((), ("--up",)))
        self.assertEqual(down, up[::-1])
        heads = ["commit_to_outcome", "reply_to", "commit_of", "next_image", "early_refusal_of", "in_arc"]
        places = [next(i for i, it in enumerate(down) if any(f" {head} :" in line for line in it)) for head in heads]
        self.assertEqual(places, sorted(places))
        self.assertEqual(places[0], 0)

    def test_each_file_comes_once_and_only_with_what_is_reached(self):
        lines = definitions("--text", "tcm_session", "run", "status")[1]
        files = [it[1] for it in map(HEAD.match, lines) if it]
        self.assertEqual(len(files), len(set(files)))
        self.assertIn("crates/tcm_session/specs/Counts.antt", files)
        self.assertNotIn("RunsScript", " ".join(lines))

    def test_what_is_absent_or_wrong_is_told(self):
        self.assertEqual(definitions("tcm_session", "run", "nothing")[0], 1)
        self.assertEqual(definitions("tcm_session")[0], 2)
        self.assertEqual(definitions("--up", *COMMIT_TO)[0], 2)

