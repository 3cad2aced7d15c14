"""Tests of bin/install and bin/package: what they leave runs without the clone, and has the same bytes each time."""
import glob
import gzip
import os
import re
import shlex
import shutil
import subprocess
import sys
import tempfile
import unittest

from tools.main import VERBS, every_verb, version
from tools.program import TOP

FITS = subprocess.run([os.path.join(TOP, "bin", "release"), "--fits"]).returncode == 0
BARE = {"PATH": "/usr/bin:/bin"}


def run(*words, **more):
    """Runs a command, and returns its status and what it printed."""
    more = {"env": BARE, "stderr": subprocess.STDOUT, **more}
    ended = subprocess.run(words, stdout=subprocess.PIPE, **more)
    return ended.returncode, ended.stdout.decode()


class InFolder(unittest.TestCase):
    """A test in an empty folder."""

    @classmethod
    def setUpClass(cls):
        cls.folder = tempfile.mkdtemp(prefix="install-test-")
        cls.addClassCleanup(shutil.rmtree, cls.folder)
        cls.prefix = os.path.join(cls.folder, "prefix")
        if FITS:
            subprocess.run([sys.executable, f"{TOP}/bin/install", cls.prefix], check=True, stdout=subprocess.DEVNULL)


@unittest.skipUnless(FITS, "dist/tcm isn't of these sources, so nothing is installed")
class Install(InFolder):
    """What bin/install leaves."""

    def installed(self, name):
        return os.path.join(self.prefix, "bin", name)

    def test_it_runs_without_the_clone(self):
        shutil.copy(os.path.join(TOP, "examples", "join.script"), self.folder)
        moved = shutil.copytree(self.prefix, os.path.join(self.folder, "moved"), symlinks=True)
        os.symlink(os.path.join(moved, "bin", "tcm"), os.path.join(self.folder, "tcm"))
        for name in (self.installed("tcm"), os.path.join(moved, "bin", "tcm"), os.path.join(self.folder, "tcm")):
            status, out = run("sh", "-c", f"'{name}' commit < join.script", cwd=self.folder)
            self.assertEqual((status, out.startswith("OK 1\n")), (0, True), out)
            self.assertEqual(run(name, "cluster", "--version")[1], f"cluster {version()}\n")
        self.assertNotIn("bin/", run(self.installed("tcm"), "cluster", "status", "--help")[1])
        status, out = run(self.installed("tcm"), "cluster", "answers", "join.script", cwd=self.folder)
        self.assertIn("> commit 12 start-join 5\nOK 12\n", out)
        nothing = {"cwd": self.folder, "stdin": subprocess.DEVNULL}
        self.assertEqual(run(self.installed("tcm-disk"), "put", "d", "a", **nothing)[0], 0)
        self.assertEqual(run(self.installed("tcm"), "disk", "list", "d", cwd=self.folder), (0, "a 0 1\n"))

    def test_it_tells_what_it_is(self):
        out = run(self.installed("tcm"), "--version")[1].splitlines()
        with open(os.path.join(TOP, "dist", "tcm.txt"), encoding="ascii") as it:
            self.assertEqual(out[:3], [f"tcm {version()}", *it.read().splitlines()[:2]])
        self.assertRegex(out[3], r"^commit ([0-9a-f]{40}\+?|unknown)$")
        said = run(self.installed("tcm"), "nothing")[1]
        page = re.search(r"and (\S+/language\.md)", said)[1]
        self.assertTrue(os.path.exists(page), page)

    def test_it_may_be_installed_over_itself(self):
        before = run("find", self.prefix)[1]
        self.assertEqual(run(sys.executable, f"{TOP}/bin/install", self.prefix, env=None)[0], 0)
        self.assertEqual(run("find", self.prefix)[1], before)

    def test_the_man_pages_name_all_verbs(self):
        pages = {}
        for path in glob.glob(f"{self.prefix}/share/man/*/*.gz"):
            with gzip.open(path, "rt") as it:
                pages[os.path.basename(path)] = it.read()
        self.assertEqual(sorted(pages), ["tcm-cluster.1.gz", "tcm-collect.1.gz", "tcm-disk.1.gz", "tcm-log.5.gz", "tcm.1.gz"])
        for module in every_verb():
            self.assertIn(f'.SH "{module.NAME.upper()}"', pages["tcm-cluster.1.gz"])
        for text in pages.values():
            self.assertNotRegex(text, r"(?m)^'|\]\(|bin/")
        self.assertIn('.SH "STATES OF A LOG"', pages["tcm-log.5.gz"])

    @unittest.skipUnless(shutil.which("groff"), "no groff, which shows man pages")
    def test_the_man_pages_can_be_shown(self):
        for page in glob.glob(f"{self.prefix}/share/man/*/*.gz"):
            with gzip.open(page) as it:
                words = ["groff", "-man", "-Tutf8", "-rLL=120n", "-ww"]
                ended = subprocess.run(words, input=it.read(), stdout=subprocess.PIPE, stderr=subprocess.PIPE)
            self.assertEqual((ended.returncode, ended.stderr), (0, b""))
            self.assertIn(b"Vongxeli", ended.stdout)

    @unittest.skipUnless(shutil.which("bash"), "no bash")
    def test_bash_completes(self):
        script = os.path.join(self.prefix, "share", "bash-completion", "completions", "tcm")
        for words, found in (
            (["tcm", "co"], ["commit"]),
            (["tcm", "--wait", "3", "mend"], ["mend2"]),
            (["tcm", "cluster", "stat"], ["status"]),
            (["tcm-cluster", "whatif", "--js"], ["--json"]),
            (["/x/tcm-disk", ""], ["list", "get", "put", "--help"]),
        ):
            line = f"COMP_WORDS=({' '.join(map(shlex.quote, words))}); COMP_CWORD={len(words) - 1}"
            said = run("bash", "-c", f'. "{script}"; {line}; _tcm; echo "${{COMPREPLY[@]}}"', cwd=self.prefix)
            self.assertEqual(said, (0, " ".join(found) + "\n"), words)
        with open(script, encoding="utf-8") as it:
            text = it.read()
        self.assertTrue(all(module.NAME in text for module in every_verb()) and len(VERBS) > 8)

    @unittest.skipUnless(shutil.which("zsh"), "no zsh")
    def test_zsh_completes(self):
        script = os.path.join(self.prefix, "share", "zsh", "site-functions", "_tcm")
        stub = "_describe() { print -r -- ${words_of}; }; _files() { print files; }"
        for words, found in (
            ("tcm ''", "mend2:writes a log"),
            ("tcm cluster ''", "status:"),
            ("tcm cluster status x", "files"),
        ):
            count = len(words.split())
            said = run("zsh", "-fc", f"{stub}; words=({words}) CURRENT={count} PREFIX=; . '{script}'")
            self.assertEqual(said[0], 0, said)
            self.assertIn(found, said[1])

    def test_a_script_that_was_copied_alone_says_so(self):
        copy = shutil.copy(os.path.join(TOP, "bin", "tcm"), os.path.join(self.folder, "alone"))
        status, said = run(copy, "commit")
        self.assertEqual(status, 125)
        self.assertIn("bin/install PREFIX", said)


@unittest.skipUnless(FITS and shutil.which("dpkg-deb"), "dist/tcm isn't of these sources, or there is no dpkg-deb")
class Package(InFolder):
    """What bin/package makes."""

    def package(self, name, umask="022", **env):
        folder = os.path.join(self.folder, name)
        words = ["sh", "-c", f"umask {umask}; '{sys.executable}' '{TOP}/bin/package' '{folder}'"]
        said = subprocess.run(words, stdout=subprocess.PIPE, env={**os.environ, **env}, check=True)
        return said.stdout.decode().split()

    def test_the_same_clone_makes_the_same_bytes(self):
        first = self.package("first", SOURCE_DATE_EPOCH="1700000000")
        second = self.package("second", "077", SOURCE_DATE_EPOCH="1700000000")
        self.assertEqual([os.path.basename(it) for it in first], [os.path.basename(it) for it in second])
        for pair in zip(first, second):
            with open(pair[0], "rb") as one, open(pair[1], "rb") as other:
                self.assertEqual(one.read(), other.read())
        out = os.path.join(self.folder, "out")
        os.mkdir(out)
        subprocess.run(["tar", "xzf", first[0], "-C", out], check=True)
        self.assertEqual(run(*glob.glob(f"{out}/*/bin/tcm"), "cluster", "--version")[1], f"cluster {version()}\n")
        subprocess.run(["dpkg-deb", "-x", first[1], f"{out}/deb"], check=True)
        self.assertEqual(run(f"{out}/deb/usr/bin/tcm", "cluster", "--version")[1], f"cluster {version()}\n")
        self.assertTrue(run(f"{out}/deb/usr/bin/tcm", "--version")[1].startswith(f"tcm {version()}\n"))

    @unittest.skipUnless(shutil.which("lintian"), "no lintian, which looks for faults of a .deb")
    def test_lintian_finds_no_fault(self):
        deb = self.package("third")[1]
        status, out = run("lintian", "--allow-root", "--fail-on", "error,warning", deb)
        self.assertEqual((status, re.findall(r"(?m)^[EW]: .*", out)), (0, []), out)


if __name__ == "__main__":
    unittest.main()
