"""What tests share: a run of the command line, the cluster of the tutorial, and whether there is a program."""
import contextlib
import io
import os
import re
import shutil
import subprocess
import sys
import tempfile
import unittest

from tools.main import main
from tools.program import TOP, program

TUTORIAL = os.path.join(TOP, "examples", "tutorial")
YES = [word for kind in ("start", "mid", "finish") for word in ("--yes", kind)]
BUNDLE = os.path.join(TUTORIAL, "bundle")
needs_program = unittest.skipUnless(
    os.environ.get("TCM"), "TCM names no program, and bin/tcm may take long to prove one"
)


def cluster(*words):
    """Runs a verb here, and returns its status, what it printed, and what it said on standard error."""
    out, err = io.StringIO(), io.StringIO()
    with contextlib.redirect_stdout(out), contextlib.redirect_stderr(err):
        try:
            status = main(list(words))
        except SystemExit as it:
            status = it.code
    return status, out.getvalue(), err.getvalue()


def command(*words, **more):
    """Runs bin/cluster as a process of its own."""
    return subprocess.run([sys.executable, os.path.join(TOP, "bin", "cluster"), *words], stderr=subprocess.PIPE, **more)


class InTutorial(unittest.TestCase):
    """A test in a copy of the folder of the tutorial and of its bundle, with a log of two of its keyspaces, all nodes up."""

    def setUp(self):
        self.before = os.getcwd()
        self.folder = tempfile.mkdtemp(prefix="cluster-test-")
        shutil.copytree(TUTORIAL, os.path.join(self.folder, "here"))
        shutil.copytree(BUNDLE, os.path.join(self.folder, "here"), dirs_exist_ok=True)
        os.chdir(os.path.join(self.folder, "here"))
        self.write("schema.cql", re.sub(r"CREATE KEYSPACE system_(auth|distributed|traces) .*", "", self.read("schema.cql")))
        self.assertEqual(cluster("import", "ring.txt", "schema.cql", "--log", "shop.log", "--cluster", "shop")[0], 0)
        os.remove("shop.log.seen")
        self.write("wishes.txt", "down 10.0.0.4\n" + self.read("wishes.txt"))

    def tearDown(self):
        os.chdir(self.before)
        shutil.rmtree(self.folder)

    def write(self, name, text):
        """Writes a file."""
        with open(name, "w", encoding="utf-8") as it:
            it.write(text)

    def read(self, name):
        """Returns the text of a file."""
        with open(name, encoding="utf-8") as it:
            return it.read()

    def ask(self, script):
        """Returns the lines that the program answers to a script on a copy of the log."""
        shutil.copyfile("shop.log", "asked.log")
        words = [program(), "commit", "asked.log", "shop"]
        ended = subprocess.run(words, input=script.encode(), stdout=subprocess.PIPE)
        return ended.stdout.decode().splitlines()
