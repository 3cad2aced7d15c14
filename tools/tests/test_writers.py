"""Tests of one writer for each file: bin/tcm takes a lock before the program starts."""
import json
import os
import random
import signal
import subprocess
import threading
import time
import unittest

from tools.tests.cluster import needs_program
from tools.tests.installed import Installed, needs_strace

COMMIT = b"commit 1 register a dc1 r1\n"
SECONDS = float(os.environ.get("WRITERS_SECONDS", "8"))  # of runs that are killed at random


@needs_program
class OneWriter(Installed):
    """A second writer of a file."""

    def assert_refused(self, *words, **more):
        status, out, said = self.run_tcm(*words, **more)
        self.assertEqual((status, out, said.count("\n")), (125, b"", 1), said)
        self.assertIn("another process writes this file, process ", said)
        self.assertIn("--wait SECONDS", said)

    def test_a_second_writer_of_a_log_is_refused(self):
        first = self.writer("commit", "a.log", "c1")
        os.mkdir(self.path("in"))
        for link, to in (("link", "a.log"), ("in/link", "../a.log"), ("folder", ".")):
            os.symlink(to, self.path(link))
        os.link(self.path("a.log"), self.path("other"))
        for name in ("a.log", self.path("a.log"), "link", "in/../a.log", "folder/a.log", "other"):
            self.assert_refused("commit", name, "c1")
        self.assert_refused("commit", "link", "c1", cwd=self.path("in"))
        self.assert_refused("commit", "a.log", "c1", cwd=self.path("folder"))
        self.assertEqual(self.end(first), 0)
        self.assertEqual(self.run_tcm("commit", "link", "c1", script=COMMIT)[:2], (0, b"OK 1\n"))

    def test_other_files_are_free(self):
        first = self.writer("commit", "a.log", "c1")
        for words in (["commit", "b.log", "c1"], ["on", "d.disk", "commit", "a.log", "c1"], ["commit"]):
            self.assertEqual(self.run_tcm(*words, script=COMMIT)[:2], (0, b"OK 1\n"))
        self.assertEqual(self.run_tcm("snapshot", "a.log", "0")[0], 0)
        self.assertEqual(self.end(first), 0)

    def test_a_second_run_on_a_disk_is_refused(self):
        first = self.writer("on", "a.disk", "commit", "a.log", "c1")
        self.assert_refused("on", "a.disk", "commit", "b.log", "c1")
        self.assert_refused("on", "a.disk", "replay", "a.log")
        self.assertEqual(self.end(first), 0)
        self.assertEqual(self.run_tcm("on", "a.disk", "snapshot", "a.log", "0")[0], 0)

    def test_a_log_that_mend2_makes_has_one_writer(self):
        old = self.write("old.log", b"")
        first = self.writer("commit", "new.log", "c1")
        self.assert_refused("mend2", old, "new.log", "c1")
        self.assertEqual(self.end(first), 0)

    def test_waiting(self):
        with self.writer("commit", "a.log", "c1") as first:
            threading.Timer(0.5, first.stdin.close).start()
            self.assertEqual(self.run_tcm("--wait", "20", "commit", "a.log", "c1", script=COMMIT)[:2], (0, b"OK 1\n"))
        first = self.writer("commit", "a.log", "c1")
        begun = time.monotonic()
        self.assert_refused("--wait", "1", "commit", "a.log", "c1")
        self.assertGreater(time.monotonic() - begun, 0.9)
        self.assertEqual(self.end(first), 0)
        self.assertEqual(self.run_tcm("--wait", "soon", "gen", "1", "1")[0], 2)

    def test_nothing_is_written_for_a_lock(self):
        held = self.write("a.log", b'{"cluster":"c1","format":2}\n')
        first = self.writer("commit", "a.log", "c1")
        self.assert_refused("commit", "a.log", "c1")
        self.assertEqual((os.listdir(self.folder), self.read(held)), (["a.log"], b'{"cluster":"c1","format":2}\n'))
        first.kill()
        self.end(first)
        self.assertEqual(self.run_tcm("commit", "a.log", "c1", script=COMMIT)[:2], (0, b"OK 1\n"))

    def test_words_that_fit_no_command_make_no_file(self):
        for words in ("commit a.log", "commit a.log c:1", "mend2 a.log b.log", "on", "nothing a.log b.log"):
            self.assertEqual(self.run_tcm(*words.split())[0], 2, words)
        self.assertEqual(self.run_tcm("commit", "", "c1")[0], 2)
        self.assertEqual(self.run_tcm("commit", "absent/a.log", "c1")[0], 6)
        self.assertEqual(os.listdir(self.folder), [])

    def test_a_caller_hands_its_locks_on(self):
        held = self.write("a.log", b'{"cluster":"c1","format":2}\n')
        for paths in ([held], [self.folder], [self.folder, held]):
            shell = "".join(f"exec {n}<'{it}'; flock -n {n}; " for n, it in enumerate(paths, 5))
            given = ",".join(str(n) for n, _ in enumerate(paths, 5))
            words = f"{shell} TCM_LOCK_FDS={given} '{self.tcm}' commit a.log c1"
            run = subprocess.run(["sh", "-c", words], cwd=self.folder, input=COMMIT, stdout=subprocess.PIPE)
            self.assertEqual((run.returncode, run.stdout), (0, b"OK 1\n"))
        first = self.writer("commit", "a.log", "c1")
        with open(held, "rb") as it:
            given = {"env": {**os.environ, "TCM_LOCK_FDS": f"x,{it.fileno()}"}, "pass_fds": [it.fileno()]}
            self.assert_refused("commit", "a.log", "c1", **given)
        self.assertEqual(self.end(first), 0)

    @needs_strace
    def test_a_file_system_without_locks(self):
        without = ["strace", "-f", "-qq", "-o", "/dev/null", "-e", "inject=flock:error=ENOLCK", self.tcm]
        run = subprocess.run([*without, "commit", "a.log", "c1"], cwd=self.folder, input=COMMIT, stderr=subprocess.PIPE)
        self.assertEqual((run.returncode, os.listdir(self.folder)), (125, []))
        self.assertIn(b"its file system has no locks", run.stderr)
        words = [*without, "--no-lock", "commit", "a.log", "c1"]
        run = subprocess.run(words, cwd=self.folder, input=COMMIT, stdout=subprocess.PIPE)
        self.assertEqual((run.returncode, run.stdout), (0, b"OK 1\n"))


class Writers:
    """Eight threads that start runs on logs of one folder, by different names, while runs are killed at random."""

    def __init__(self, test, seed):
        self.test, self.draw = test, random.Random(seed)
        self.answered = {}
        self.ended = time.monotonic() + SECONDS / 4

    def names(self):
        """The ways to a log: its name, its path, by a link to it, by a link to the folder, and from another folder."""
        folder = self.test.folder
        here = [(it, folder) for it in ("a.log", "link.log", "f/a.log")]
        return self.draw.choice([*here, (f"{folder}/a.log", "/"), ("../a.log", f"{folder}/in")])

    def run(self):
        threads = [threading.Thread(target=self.write, args=(at,)) for at in range(8)]
        for it in threads:
            it.start()
        for it in threads:
            it.join()

    def write(self, at):
        """Starts one run after another; each has ids of its own."""
        number = at
        while time.monotonic() < self.ended:
            name, cwd = self.names()
            first, number = number * 1000 + 1, number + 8
            lines = [f"commit {first + i} register n{first + i} dc1 r1\n".encode() for i in range(40)]
            words = [*self.draw.choice(([], ["--wait", "1"])), "commit", name, "c1"]
            run = self.test.start(*words, cwd=cwd, start_new_session=True)
            killer = threading.Timer(self.draw.uniform(0, 0.2), self.kill, (run,))
            killer.start()
            log = "link.log" if name == "link.log" else "a.log"
            out = b"".join(self.talk(run, lines))
            killer.cancel()
            killer.join()  # (before the id of the process is free)
            run.wait()
            oks = out.count(b"OK ")
            self.answered.setdefault(log, set()).update(range(first, first + oks))

    def talk(self, run, lines):
        """Sends lines one after another, and gives the answers."""
        try:
            for line in lines:
                run.stdin.write(line)
                run.stdin.flush()
                answer = run.stdout.readline()
                if not answer.endswith(b"\n"):
                    break
                yield answer
            run.stdin.close()
        except BrokenPipeError:
            pass
        finally:
            for pipe in (run.stdin, run.stdout, run.stderr):
                try:
                    pipe.close()
                except BrokenPipeError:
                    pass

    def kill(self, run):
        """Kills a run, its program alone, or both."""
        try:
            with open(f"/proc/{run.pid}/task/{run.pid}/children", encoding="ascii") as it:
                children = it.read().split()
            self.draw.choice((
                run.kill,
                lambda: os.killpg(run.pid, signal.SIGKILL),
                lambda: [os.kill(int(it), signal.SIGKILL) for it in children],
            ))()
        except (ProcessLookupError, FileNotFoundError):
            pass  # (it has ended)


@needs_program
class Kills(Installed):
    """Runs that are killed at random."""

    def check(self, name, answered):
        """Checks that a log has no id twice, no epoch that skips, and each commit that was answered."""
        lines = self.read(name).split(b"\n")
        entries = [json.loads(it) for it in lines[1:-1]]
        self.assertEqual([it["epoch"] for it in entries], list(range(1, len(entries) + 1)))
        ids = [it["entry"] for it in entries]
        self.assertEqual(len(set(ids)), len(ids))
        self.assertLessEqual(answered, set(ids))
        self.assertEqual(self.run_tcm("snapshot", name, "1")[0] in (0, 7), True)
        return len(entries)

    def test_no_epoch_skips(self):
        header = b'{"cluster":"c1","format":2}\n'
        for seed, begin in enumerate((None, b"", header + b'{"comm', header)):
            os.mkdir(self.path("in"))
            os.symlink(".", self.path("f"))
            os.symlink("a.log", self.path("link.log"))
            if begin is not None:
                self.write("a.log", begin)
            writers = Writers(self, seed)
            writers.run()
            with self.subTest(begin):
                answered = writers.answered
                if os.path.islink(self.path("link.log")):
                    answered = {"a.log": set().union(*answered.values())}
                for name, ids in answered.items():
                    self.check(name, ids)
            for name in os.listdir(self.folder):
                (os.rmdir if name == "in" else os.remove)(self.path(name))


if __name__ == "__main__":
    unittest.main()
