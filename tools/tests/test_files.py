"""Tests of files that are written: whole or absent, with nothing left behind, and none written over by a slip."""
import os
import resource
import signal
import stat
import subprocess
import sys
import tempfile
import time
import unittest

from tools import files
from tools.errors import Refused
from tools.program import TOP
from tools.tests.cluster import InTutorial, cluster, needs_program

NO_ROOM = 64  # bytes that a file may have in the place of a full file system


class Whole(unittest.TestCase):
    """write_whole and scratch."""

    def setUp(self):
        self.folder = tempfile.mkdtemp(prefix="files-test-")
        self.path = os.path.join(self.folder, "a")

    def tearDown(self):
        subprocess.run(["rm", "-r", self.folder], check=True)

    def read(self, path):
        with open(path, "rb") as it:
            return it.read()

    def test_a_file_is_replaced_with_its_permissions_and_behind_its_link(self):
        files.write_whole(self.path, b"one")
        os.chmod(self.path, 0o640)
        link = os.path.join(self.folder, "link")
        os.symlink("a", link)
        files.write_whole(link, b"two")
        self.assertTrue(os.path.islink(link))
        self.assertEqual((self.read(self.path), stat.S_IMODE(os.stat(self.path).st_mode)), (b"two", 0o640))
        self.assertEqual(sorted(os.listdir(self.folder)), ["a", "link"])

    def test_a_full_file_system_leaves_the_old_file_and_nothing_else(self):
        files.write_whole(self.path, b"one")
        before = resource.getrlimit(resource.RLIMIT_FSIZE)
        resource.setrlimit(resource.RLIMIT_FSIZE, (NO_ROOM, before[1]))
        try:
            with self.assertRaisesRegex(Refused, "File too large"):
                files.write_whole(self.path, b"." * (NO_ROOM + 1))
        finally:
            resource.setrlimit(resource.RLIMIT_FSIZE, before)
        self.assertEqual((self.read(self.path), os.listdir(self.folder)), (b"one", ["a"]))

    def test_what_cannot_be_written_is_told(self):
        for path, why in ((self.folder, "directory"), ("/dev/full", "No space"), (self.path + "/b", "No such|Not a")):
            with self.subTest(path), self.assertRaisesRegex(Refused, why):
                files.write_whole(path, b"one")
        files.write_whole("/dev/null", b"one")
        self.assertFalse(os.path.isfile("/dev/null"))

    def test_a_folder_for_a_while_goes(self):
        with files.scratch() as folder:
            self.assertTrue(os.path.isdir(folder))
        self.assertFalse(os.path.exists(folder))

    def test_a_folder_that_a_killed_process_left_goes_once_it_is_old(self):
        script = "import os, signal\nfrom tools.files import scratch\nwith scratch() as it:\n  print(it, flush=True)\n  "
        for end, stays in (("os.kill(os.getpid(), signal.SIGKILL)", True), ("raise KeyboardInterrupt", False)):
            run = [sys.executable, "-c", script + end]
            ended = subprocess.run(run, cwd=TOP, stdout=subprocess.PIPE, stderr=subprocess.DEVNULL)
            left = ended.stdout.decode().strip()
            self.assertEqual(os.path.isdir(left), stays)
        left = tempfile.mkdtemp(prefix=files.SCRATCH)
        files.sweep()
        self.assertTrue(os.path.isdir(left))
        long_ago = time.time() - 2 * files.OLD
        held = files.hold(left)
        os.utime(left, (long_ago, long_ago))
        files.sweep()
        self.assertTrue(os.path.isdir(left))
        os.close(held)
        files.sweep()
        self.assertFalse(os.path.isdir(left))

    def test_a_line_that_is_no_object_has_none(self):
        for line in (b"[" * 100000 + b"\n", b"1" * 5000 + b"\n", b"\xff\n", b"[]\n", b'{"a":1}', b""):
            self.assertEqual(files.object_in(line), {})
        self.assertEqual(files.object_in(b'{"a":1}\n'), {"a": 1})


@needs_program
class Outputs(InTutorial):
    """Files that verbs write."""

    def verbs(self, to):
        """The verbs that write a file, with this one."""
        return (
            ["whatif", "shop.log", "wishes.txt", "--script", to],
            ["draw", "--log", "shop.log", "--to", to],
            ["import", "ring.txt", "schema.cql", "--script", to],
        )

    def test_no_log_and_no_input_is_written_over(self):
        os.symlink("shop.log", "link")
        os.link("shop.log", "second")
        self.write("shop.log.names", "# kind\n")
        kept = ["shop.log", "shop.log.names", "wishes.txt", "ring.txt", "schema.cql"]
        before = [self.read(it) for it in kept]
        for to in ("shop.log", "link", "second", "./shop.log", os.path.abspath("shop.log")):
            for words in self.verbs(to):
                with self.subTest(words):
                    self.assertEqual(cluster(*words)[0], 1)
                    status, out, said = cluster(*words, "--force")
                    self.assertEqual((status, out), (1, ""))
                    self.assertIn("choose another name", said)
        for to, words in (("wishes.txt", 0), ("shop.log.names", 0), ("shop.log.names", 1), ("ring.txt", 2)):
            status, _, said = cluster(*self.verbs(to)[words], "--force")
            self.assertEqual(status, 1)
            self.assertIn("which is read here", said)
        self.assertEqual([self.read(it) for it in kept], before)

    def test_another_file_is_written_over_by_force_alone(self):
        for number, words in enumerate(self.verbs("there")):
            self.write("there", "mine\n")
            status, _, said = cluster(*words)
            self.assertEqual((status, self.read("there")), (1, "mine\n"), number)
            self.assertIn("--force", said)
            self.assertEqual(cluster(*words, "--force")[0], 0)
            self.assertNotEqual(self.read("there"), "mine\n")
        self.assertEqual(cluster("draw", "--log", "shop.log", "--to", "/dev/null")[0], 0)

    def test_a_signal_leaves_nothing_behind(self):
        self.write("tcm", "#!/bin/sh\nsleep 60\n")
        os.chmod("tcm", 0o755)
        temporary = os.path.join(self.folder, "tmp")
        os.mkdir(temporary)
        env = {**os.environ, "TCM": os.path.abspath("tcm"), "TMPDIR": temporary}
        words = [sys.executable, os.path.join(TOP, "bin", "cluster"), "answers", "shop.log", "--on", "shop.log"]
        run = subprocess.Popen(words, env=env, stdout=subprocess.DEVNULL)
        while not os.listdir(temporary):
            time.sleep(0.02)
        run.send_signal(signal.SIGTERM)
        self.assertEqual((run.wait(20), os.listdir(temporary)), (128 + signal.SIGTERM, []))


if __name__ == "__main__":
    unittest.main()
