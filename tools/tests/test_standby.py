"""Tests of docs/standby.md: a log that was cut and went on is shipped by the command of the page, and by no append."""
import os
import re
import shlex
import shutil
import subprocess
import tempfile
import unittest

from tools.program import TOP, program
from tools.tests.cluster import needs_program

TORN = b'{"command":{"dc":"dc1","kind":"register","name":"a-name-of-some-length","rack":"r1"},"entry":7,"epo'
needs_rsync = unittest.skipUnless(shutil.which("rsync"), "rsync isn't installed")


def command_of_page():
    """Returns the words of the page's command, for a standby in the folder `standby`."""
    with open(os.path.join(TOP, "docs", "standby.md"), encoding="utf-8") as it:
        found = re.search(r"`(rsync --checksum cluster\.log standby:)`", it.read())
    assert found
    return shlex.split(found[1].replace("standby:", "standby/"))


@needs_rsync
@needs_program
class Shipped(unittest.TestCase):
    """A log with two entries and a torn line, which a standby has too. The next start cuts the line and goes on."""

    def setUp(self):
        self.folder = tempfile.mkdtemp(prefix="standby-test-")
        self.addCleanup(shutil.rmtree, self.folder)
        os.mkdir(os.path.join(self.folder, "standby"))
        self.commit(b"commit 1 register a dc1 r1\ncommit 2 register b dc1 r1\n")
        with open(self.path("cluster.log"), "ab") as it:
            it.write(TORN)
        self.ship(*command_of_page())
        self.assertEqual(self.read("standby", "cluster.log"), self.read("cluster.log"))
        self.assertEqual(self.commit(b"commit 3 register c dc1 r1\n"), b"OK 3\n")

    def path(self, *names):
        return os.path.join(self.folder, *names)

    def read(self, *names):
        with open(self.path(*names), "rb") as it:
            return it.read()

    def commit(self, script):
        """Returns the answers to a script, from the log on."""
        words = [program(), "commit", "cluster.log", "prod"]
        return subprocess.run(words, cwd=self.folder, input=script, stdout=subprocess.PIPE, check=True).stdout

    def ship(self, *words):
        """Runs rsync, which ends with status 0."""
        subprocess.run(words, cwd=self.folder, check=True)

    def test_the_command_ships_each_answered_commit(self):
        for more in ((), ("--no-whole-file",), ("--times",)):
            self.ship(*command_of_page(), *more)
            self.assertEqual(self.read("standby", "cluster.log"), self.read("cluster.log"))
            self.commit(b"commit %d unregister 1\n" % (4 + len(more)))

    def test_the_command_ships_a_line_of_the_same_length_and_time(self):
        self.ship(*command_of_page(), "--times")
        log = self.read("cluster.log")
        with open(self.path("standby", "cluster.log"), "wb") as it:
            it.write(log.replace(b'"name":"c"', b'"name":"d"'))
        about = os.stat(self.path("cluster.log"))
        os.utime(self.path("standby", "cluster.log"), ns=(about.st_atime_ns, about.st_mtime_ns))
        self.ship("rsync", "--times", "cluster.log", "standby/")
        self.assertNotEqual(self.read("standby", "cluster.log"), log)
        self.ship(*command_of_page())
        self.assertEqual(self.read("standby", "cluster.log"), log)

    def test_an_append_lacks_an_answered_commit(self):
        for option in ("--append", "--append-verify"):
            self.ship("rsync", option, "cluster.log", "standby/")
            self.assertNotIn(b'"entry":3', self.read("standby", "cluster.log"))
