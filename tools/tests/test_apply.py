"""Tests of apply: its questions, its statuses, going on after a stop, one writer, and answers that can't be."""
import json
import os
import pty
import random
import signal
import subprocess
import sys
import time
import unittest

from tools.log import epochs_by_id, last_epoch, state
from tools.program import TOP
from tools.script import id_of
from tools.tests.cluster import YES, InTutorial, cluster, command, needs_program

REPLACE = """register 10.0.0.5 dc1 rack1
prepare-replace 10.0.0.5 10.0.0.4
start-replace 10.0.0.5
mid-replace 10.0.0.5
finish-replace 10.0.0.5
"""
ODD_ANSWERS = ("REFUSED 1 12 LINE 2", "tcm", "OK 12", "OK 0", "OK 011", "OK 11 ", "AT 11", "")
SECONDS = float(os.environ.get("APPLY_SECONDS", "8"))  # of runs that are killed at random


class WithReplace(InTutorial):
    """A test with the script of a replace."""

    def setUp(self):
        super().setUp()
        self.write("a.script", REPLACE)

    def start(self, *words, **more):
        """Starts bin/cluster apply."""
        run = [sys.executable, os.path.join(TOP, "bin", "cluster"), "apply", *words]
        return subprocess.Popen(run, **more)

    def on_terminal(self, answers, *words):
        """Applies the script on a terminal, where questions are answered one after another; returns status and text."""
        master, slave = pty.openpty()
        run = self.start("shop.log", "a.script", *words, stdin=slave, stdout=slave, stderr=slave)
        os.close(slave)
        text, rest = b"", list(answers)
        while True:
            try:
                read = os.read(master, 1024)
            except OSError:
                break
            text += read
            if read and text.endswith(b"[y/N] ") and rest:
                os.write(master, rest.pop(0) + b"\n")
            if not read:
                break
        os.close(master)
        return run.wait(20), text.decode()


@needs_program
class Questions(WithReplace):
    """Questions and statuses."""

    def test_each_step_is_asked_for(self):
        for kinds, epoch in (((), 12), (("start",), 13), (("start", "finish"), 13), (("start", "mid"), 14), (("mid",), 14)):
            words = [word for it in kinds for word in ("--yes", it)]
            ended = command("apply", "shop.log", "a.script", *words, stdin=subprocess.DEVNULL, stdout=subprocess.PIPE)
            self.assertEqual((ended.returncode, last_epoch("shop.log")), (4, epoch))
        self.assertIn(b"a.script:5: finish-replace 10.0.0.5: not confirmed", ended.stderr)
        self.assertIn(b"--yes finish", ended.stderr)
        self.assertEqual(cluster("apply", "shop.log", "a.script", "--yes", "finish")[0], 0)
        status, out, _ = cluster("apply", "shop.log", "a.script")
        self.assertEqual((status, last_epoch("shop.log")), (0, 15))
        self.assertIn("5 commands up to here are in the log already, up to epoch 15, and are passed over", out)

    def test_a_terminal_is_asked(self):
        status, text = self.on_terminal([b"y", b"no"])
        self.assertEqual((status, last_epoch("shop.log")), (4, 13))
        self.assertIn("Is the machine of each of these up: 10.0.0.5?", text)
        self.assertIn("have all coordinators seen epoch 12?", text)
        status, text = self.on_terminal([b"Y", b"yes"])
        self.assertEqual((status, last_epoch("shop.log")), (0, 15), text)
        self.assertIn("a.script:3: 3 commands up to here are in the log already, up to epoch 13", text)

    def test_yes_needs_a_kind(self):
        for words in (["--yes"], ["--yes", "all"]):
            self.assertEqual(cluster("apply", "shop.log", "a.script", *words)[0], 2)

    def test_a_wave_has_one_question_for_its_starts(self):
        self.write("a.script", "drop-keyspace logs\nregister a dc9 r\nregister b dc9 r\nprepare-join a 5\nprepare-join b 7\nstart-join a\n"
                   "start-join b\nmid-join a\nmid-join b\nfinish-join a\nfinish-join b\n")
        status, text = self.on_terminal([b"y", b"y", b"y", b"y", b"y"])
        self.assertEqual((status, text.count("[y/N]"), text.count("a new wave begins")), (0, 5, 1), text)
        self.assertIn("these up: a, b?", text)

    def test_a_line_that_would_be_refused_is_told_before_anything_is_done(self):
        self.write("a.script", REPLACE + "unregister 10.0.0.1\n")
        status, out, said = cluster("apply", "shop.log", "a.script", *YES)
        self.assertEqual((status, out, last_epoch("shop.log")), (3, "", 10))
        self.assertIn("a.script:6: unregister 10.0.0.1: NO NODE-STATE JOINED", said)

    def test_lines_with_ids_act_once(self):
        self.write("a.script", "commit 77 register x dc1 rack1\ncommit 78 unregister x\n")
        self.assertEqual(cluster("apply", "shop.log", "a.script")[0], 0)
        self.assertEqual(cluster("apply", "shop.log", "a.script")[0], 0)
        self.assertEqual(last_epoch("shop.log"), 12)
        self.write("a.script", "commit 77 register y dc1 rack1\n")
        status, _, said = cluster("apply", "shop.log", "a.script")
        self.assertEqual(status, 3)
        self.assertIn("NO ID-REUSED 11", said)

    def test_a_line_between_lines_of_the_log_is_refused(self):
        cluster("apply", "shop.log", "a.script")
        self.write("a.script", "register new dc1 rack1\n" + REPLACE)
        status, _, said = cluster("apply", "shop.log", "a.script")
        self.assertEqual((status, last_epoch("shop.log")), (1, 12))
        self.assertIn("a.script:2: it is in the log at epoch 11, and line 1 isn't before it", said)

    def test_ids_are_those_of_script_line_and_repetition(self):
        ids = {id_of(head, said, times) for head in ("", "a") for said in ("cancel 1", "cancel 2") for times in (1, 2)}
        self.assertEqual(len(ids), 8)
        self.assertTrue(all(0 <= it < 2**64 for it in ids))


@needs_program
class Heads(WithReplace):
    """The head of a plan."""

    def test_the_plan_of_another_cluster_is_refused(self):
        cluster("whatif", "shop.log", "wishes.txt", "--script", "plan")
        self.assertEqual(self.read("plan").split("\n")[0], "# plan of the cluster shop at epoch 10")
        cluster("import", "ring.txt", "schema.cql", "--log", "other.log", "--cluster", "other")
        status, _, said = cluster("apply", "other.log", "plan", *YES)
        self.assertEqual((status, last_epoch("other.log")), (1, 10))
        self.assertIn("this is a plan of the cluster shop", said)

    def test_a_log_that_went_on_is_asked_about(self):
        cluster("whatif", "shop.log", "wishes.txt", "--script", "plan")
        self.write("a.script", "register other dc1 rack1\n")
        cluster("apply", "shop.log", "a.script")
        status, _, said = cluster("apply", "shop.log", "plan", *YES)
        self.assertEqual((status, last_epoch("shop.log")), (4, 11))
        self.assertIn("the log has 1 command since epoch 10 that aren't of this plan", said)
        self.assertEqual(cluster("apply", "shop.log", "plan", "--yes", "epoch")[0], 4)
        self.assertEqual(cluster("apply", "shop.log", "plan", "--yes", "epoch", *YES)[0], 0)
        self.write("plan", self.read("plan").replace("epoch 10", "epoch 99") + "register late dc1 rack1\n")
        last = str(self.read("plan").count("\n"))
        self.assertIn("the plan is of epoch 99", cluster("apply", "shop.log", "plan", "--from", last, *YES)[2])


@needs_program
class OneWriter(WithReplace):
    """Two runs at once, and runs that are killed."""

    def at_question(self):
        """Starts a run that waits at its first question; returns it with the terminal."""
        master, slave = pty.openpty()
        run = self.start("shop.log", "a.script", stdin=slave, stdout=slave, stderr=slave)
        os.close(slave)
        text = b""
        while b"[y/N]" not in text:
            text += os.read(master, 1024)
        return run, master

    def test_a_second_run_is_refused_while_the_first_waits(self):
        run, master = self.at_question()
        os.symlink("shop.log", "link")
        for log in ("shop.log", "link", os.path.abspath("shop.log")):
            status, out, said = cluster("apply", log, "a.script", *YES)
            self.assertEqual((status, out), (125, ""))
            self.assertIn(f"process {run.pid} writes it now", said)
        self.assertEqual(cluster("apply", "shop.log", "a.script", "--dry-run")[0], 0)
        os.write(master, b"y\n")
        time.sleep(0.1)
        os.write(master, b"y\ny\n")
        self.assertEqual(cluster("apply", "shop.log", "a.script", *YES, "--wait", "20")[0], 0)
        self.assertEqual(run.wait(20), 0)
        os.close(master)
        self.assertEqual(state("shop.log").epoch, 15)

    def test_the_program_ends_with_a_run_that_is_killed(self):
        run, master = self.at_question()
        with open(f"/proc/{run.pid}/task/{run.pid}/children", encoding="ascii") as it:
            children = [int(child) for child in it.read().split()]
        self.assertTrue(children)
        run.kill()
        run.wait()
        os.close(master)
        until = time.monotonic() + 5
        while any(os.path.exists(f"/proc/{it}") and not is_zombie(it) for it in children):
            self.assertLess(time.monotonic(), until)
            time.sleep(0.01)
        self.assertEqual(cluster("apply", "shop.log", "a.script", *YES, "--wait", "5")[0], 0)
        self.assertEqual(state("shop.log").epoch, 15)

    def test_eight_runs_at_once_lose_no_answer(self):
        draw, until, answered = random.Random(7), time.monotonic() + SECONDS, {}
        for round_ in range(10**6):
            if time.monotonic() > until:
                break
            runs = []
            for i in range(8):
                self.write(f"{i}.script", "".join(f"register r{round_}-{i}-{k} dc1 rack1\n" for k in range(5)))
                runs.append(self.start("shop.log", f"{i}.script", "--wait", "5", stdout=subprocess.PIPE,
                                       stderr=subprocess.DEVNULL))
            for _ in range(draw.randrange(4)):
                time.sleep(draw.random() / 4)
                os.kill(draw.choice(runs).pid, signal.SIGKILL)
            for run in runs:
                for line in run.communicate()[0].decode().splitlines():
                    if ": OK " in line and line[-1].isdigit():
                        said, _, epoch = line.rpartition(": OK ")
                        answered[said.split(": ")[1]] = int(epoch)
        entries = [json.loads(it) for it in self.read("shop.log").splitlines()[1:]]
        self.assertEqual([it["epoch"] for it in entries], list(range(1, len(entries) + 1)))
        self.assertEqual(len(epochs_by_id("shop.log")), len(entries))
        self.assertTrue(answered)
        for said, epoch in answered.items():
            self.assertEqual(entries[epoch - 1]["entry"], id_of("", said, 1))
            self.assertEqual(entries[epoch - 1]["command"]["name"], said.split()[1])
        self.assertEqual(state("shop.log").epoch, len(entries))


class WithBinTcm(WithReplace):
    """The same with bin/tcm, which takes locks of its own."""

    def setUp(self):
        if not os.environ.get("TCM"):
            self.skipTest("TCM names no program")
        super().setUp()
        self.env = {it: value for it, value in os.environ.items() if it != "TCM"}

    def test_bin_tcm_takes_the_lock_that_it_is_handed(self):
        if subprocess.run([os.path.join(TOP, "bin", "release"), "--fits"]).returncode:
            self.skipTest("dist/tcm is of other sources")
        self.write("new.script", "register z dc1 rack1\n")
        for words in (["shop.log", "a.script", *YES], ["new.log", "new.script", "--cluster", "c1"]):
            ended = command("apply", *words, env=self.env, stdout=subprocess.PIPE)
            self.assertEqual(ended.returncode, 0, ended.stderr)
        self.write("torn.log", self.read("new.log") + "{")
        self.write("new.script", "register y dc1 rack1\n")
        ended = command("apply", "torn.log", "new.script", env=self.env, stdout=subprocess.PIPE)
        self.assertEqual((ended.returncode, last_epoch("torn.log")), (0, 2), ended.stderr)


def is_zombie(process):
    """Whether a process has ended and waits for its parent."""
    try:
        with open(f"/proc/{process}/stat", encoding="ascii") as it:
            return it.read().rpartition(")")[2].split()[0] == "Z"
    except OSError:
        return True


@needs_program
class Answers(WithReplace):
    """Answers that can't be."""

    def with_program(self, script):
        """Sets a program in the place of tcm, which gets the words of the true one."""
        self.write("tcm", f'#!/bin/sh\nTRUE={os.environ["TCM"]}\n{script}\n')
        os.chmod("tcm", 0o755)
        return {**os.environ, "TCM": os.path.abspath("tcm")}

    def test_only_ok_with_the_next_epoch_is_accepted(self):
        self.write("a.script", "register x dc1 rack1\n")
        for said in ODD_ANSWERS:
            env = self.with_program(f'case "$2" in *shop.log) read -r line; echo "{said}" ;; *) exec $TRUE "$@" ;; esac')
            ended = command("apply", "shop.log", "a.script", env=env, stdout=subprocess.PIPE)
            with self.subTest(said):
                self.assertEqual((ended.returncode, ended.stdout), (5, b""), ended.stderr)
                self.assertIn(b"a.script:1: ", ended.stderr)
                self.assertNotIn(b"Traceback", ended.stderr)

    def test_the_id_of_a_node_is_the_one_that_the_program_tells(self):
        self.write("a.script", "register y dc1 rack1\nprepare-join y 4242\n")
        other = f'echo "commit 999 register x dc2 rack9" | $TRUE commit shop.log shop >/dev/null'
        env = self.with_program(f'case "$2" in *shop.log) {other}; exec $TRUE "$@" ;; *) exec $TRUE "$@" ;; esac')
        ended = command("apply", "shop.log", "a.script", env=env, stdout=subprocess.PIPE)
        self.assertEqual((ended.returncode, ended.stdout), (5, b""), ended.stderr)
        self.assertFalse(state("shop.log").movements)


if __name__ == "__main__":
    unittest.main()
