"""Tests of bin/disk: files that are put on a disk, and those that the program keeps there."""
import os
import shutil
import subprocess
import sys
import tempfile
import unittest

from tools.program import TOP, run
from tools.tests.cluster import needs_program

COMMIT = b"commit 1 register a dc1 r1\n"


class OnDisk(unittest.TestCase):
    """A test in a folder of its own."""

    def setUp(self):
        self.folder = tempfile.mkdtemp(prefix="disk-test-")
        self.addCleanup(shutil.rmtree, self.folder)
        self.path = os.path.join(self.folder, "disk")

    def disk(self, *words, data=b""):
        """Runs bin/disk on the disk, and returns its status and what it printed."""
        words = [sys.executable, os.path.join(TOP, "bin", "disk"), words[0], self.path, *words[1:]]
        ended = subprocess.run(words, input=data, stdout=subprocess.PIPE, stderr=subprocess.PIPE)
        return ended.returncode, ended.stdout

    def write(self, data):
        with open(self.path, "wb") as it:
            it.write(data)

    def read(self):
        with open(self.path, "rb") as it:
            return it.read()

    def test_what_is_put_is_got(self):
        for name, data in (("a", b"one"), ("b", b""), ("a", b"two\n")):
            self.assertEqual(self.disk("put", name, data=data), (0, b""))
        self.assertEqual(self.disk("get", "a"), (0, b"two\n"))
        self.assertEqual(self.disk("list"), (0, b"a 4 1\nb 0 1\n"))
        self.assertEqual(self.disk("get", "c"), (1, b""))

    def test_a_torn_disk_is_gone_on_with(self):
        self.disk("put", "a", data=b"one")
        whole = self.read()
        for torn in (whole[:-1], whole[:-1] + b"\1", whole[:-1] + b"\1\0\0", whole + b"rest"):
            self.write(torn)
            self.assertEqual(self.disk("put", "b", data=b"two"), (0, b""))
            self.assertEqual(self.disk("list"), (0, b"a 3 1\nb 3 1\n"))

    @needs_program
    def test_a_log_moves_onto_a_disk_and_off_it(self):
        log = os.path.join(self.folder, "log")
        self.assertEqual(run(["commit", log, "c1"], COMMIT).status, 0)
        with open(log, "rb") as it:
            held = it.read()
        self.disk("put", "log", data=held)
        more = run(["on", self.path, "commit", "log", "c1"], COMMIT + b"commit 2 unregister 1\n")
        self.assertEqual((more.status, more.out), (0, b"OK 1\nOK 2\n"))
        run(["commit", log, "c1"], b"commit 2 unregister 1\n")
        with open(log, "rb") as it:
            self.assertEqual(self.disk("get", "log"), (0, it.read()))

    @needs_program
    def test_the_program_writes_the_same_records(self):
        run(["on", self.path, "commit", "x", "c1"], b"")
        first = self.read()
        header = self.disk("get", "x")[1]
        os.remove(self.path)
        self.disk("put", "x", data=header)
        self.assertEqual(self.read(), first)


if __name__ == "__main__":
    unittest.main()
