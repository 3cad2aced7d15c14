"""What tests of bin/tcm share: a folder with bin/tcm as bin/install leaves it, over the program that TCM names."""
import os
import shutil
import subprocess
import tempfile
import unittest

from tools.program import TOP, program


def can_trace():
    """Returns whether strace is here and may trace."""
    words = ["strace", "-qq", "-o", "/dev/null", "true"]
    return bool(shutil.which("strace")) and subprocess.run(words, stderr=subprocess.DEVNULL).returncode == 0


needs_strace = unittest.skipUnless(can_trace(), "strace, which lets calls of the system fail, isn't here or may not trace")


def install(prefix):
    """Puts bin/tcm, what it reads and the program into a folder, and returns the path of bin/tcm there."""
    lib = os.path.join(prefix, "lib", "vongxeli")
    shutil.copytree(os.path.join(TOP, "bin", "lib"), lib)
    os.mkdir(os.path.join(prefix, "bin"))
    shutil.copy(os.path.join(TOP, "bin", "tcm"), os.path.join(prefix, "bin", "tcm"))
    shutil.copy(program(), os.path.join(lib, "tcm"))
    return os.path.join(prefix, "bin", "tcm")


class Installed(unittest.TestCase):
    """A test in a folder of its own, with bin/tcm in a folder beside it."""

    @classmethod
    def setUpClass(cls):
        cls.prefix = tempfile.mkdtemp(prefix="installed-")
        cls.addClassCleanup(shutil.rmtree, cls.prefix)
        cls.tcm = install(cls.prefix)

    def setUp(self):
        self.folder = os.path.realpath(tempfile.mkdtemp(prefix="writers-test-"))
        self.addCleanup(shutil.rmtree, self.folder)

    def path(self, name):
        return os.path.join(self.folder, name)

    def write(self, name, data):
        """Writes a file, and returns its path."""
        with open(self.path(name), "wb") as it:
            it.write(data)
        return self.path(name)

    def read(self, name):
        with open(self.path(name), "rb") as it:
            return it.read()

    def start(self, *words, **more):
        """Starts bin/tcm with pipes."""
        more = {"cwd": self.folder, **more}
        pipe = subprocess.PIPE
        return subprocess.Popen([self.tcm, *words], stdin=pipe, stdout=pipe, stderr=pipe, **more)

    def run_tcm(self, *words, script=b"", **more):
        """Runs bin/tcm, and returns its status, what it printed, and what it said on standard error."""
        run = self.start(*words, **more)
        out, err = run.communicate(script)
        return run.returncode, out, err.decode()

    def writer(self, *words, **more):
        """Starts a run that has answered a first line and holds its lock: it is to be closed by `end`."""
        run = self.start(*words, **more)
        run.stdin.write(b"nodes @0\n")
        run.stdin.flush()
        self.assertEqual(run.stdout.readline(), b"NODES 0 0 0\n")
        return run

    def end(self, run):
        run.communicate()
        return run.returncode
