"""Tests of the trials of kills, memory, full files and power: what is wrong has to be noticed."""
from __future__ import annotations

import os
import random
import shutil
import subprocess
import tempfile
import unittest

from trials import strace
from trials.accepted import LOG, Script, file_of, goes_on, lost_or_changed
from trials.kind import Case
from trials.kinds.power import left_after, printed_early, torn
from trials.rows import RELEASE
from trials.strace import Printed, Sync, Write, acts_of, traced

PROGRAM = os.environ.get("TCM") or RELEASE
LAZY = "int fsync(int file) { return file < 0; }\nint fdatasync(int file) { return file < 0; }\n"
SCRIPT = Script(b"", b"OK 1\nOK 2\n", b"header\none\ntwo\n")
LINES = b"commit 1 register a dc1 r1\ncommit 2 register b dc1 r1\n"


class AfterAFault(unittest.TestCase):
    """What has to hold after a fault."""

    def test_what_may_be_left(self) -> None:
        for printed, log in ((b"", b""), (b"OK 1\n", b"header\none\n"), (b"OK 1\n", b"header\none\ntw"), (b"O", b"hea")):
            self.assertEqual(lost_or_changed(SCRIPT, printed, log), "", (printed, log))

    def test_what_may_not_be_left(self) -> None:
        for printed, log in (
            (b"OK 1\n", b"header\n"),
            (b"OK 1\n", b"header\non"),
            (b"OK 2\n", b"header\none\ntwo\n"),
            (b"", b"header\ntwo\n"),
            (b"OK 1\nOK 2\n", b"header\none\ntw"),
            (b"", b"header\none\ntwo\nthree\n"),
        ):
            self.assertNotEqual(lost_or_changed(SCRIPT, printed, log), "", (printed, log))

    def test_other_answers_are_noticed(self) -> None:
        with tempfile.TemporaryDirectory() as folder:
            case = Case(0, PROGRAM, folder)
            case.run(["commit", LOG, "c"], LINES)
            log = case.read(LOG)
            self.assertEqual(goes_on(case, Script(LINES, b"OK 1\nOK 2\n", log), False), "")
            self.assertNotEqual(goes_on(case, Script(LINES, b"OK 1\nOK 3\n", log), False), "")
            self.assertNotEqual(goes_on(case, Script(LINES, b"OK 1\nOK 2\n", log + b"x"), False), "")


class Power(unittest.TestCase):
    """Losses of power."""

    def test_an_answer_waits_for_the_sync(self) -> None:
        write, answer = Write(0, b"1"), Printed(b"OK 1\n")
        self.assertEqual(printed_early([write, Sync(), answer]), "")
        self.assertNotEqual(printed_early([write, answer, Sync()]), "")
        self.assertNotEqual(printed_early([write, Sync(), write, answer]), "")

    def test_what_was_synced_stays(self) -> None:
        draw = random.Random(1)
        for _ in range(200):
            image = left_after(b"", [Write(0, b"abcd"), Sync(), Write(2, b"xyz")], draw)
            self.assertEqual(image[:2], b"ab")
        lost = {bytes(torn(Write(0, b"abcd"), draw).data) for _ in range(300)}
        self.assertTrue({b"", b"abcd", b"ab", b"cd", bytes(4)} <= lost)

    def test_the_trace_is_read(self) -> None:
        trace = [
            '7 openat(AT_FDCWD, "\\x64", O_RDWR|O_CREAT, 0666) = 3',
            '7 lseek(3, 5, SEEK_SET) = 5',
            '7 write(3, "\\x61\\x62", 2) = 2',
            '7 write(4, "\\x61", 1) = 1',
            "7 fdatasync(3) = 0",
            '7 write(1, "\\x4f\\x4b", 2) = 2',
        ]
        self.assertEqual(acts_of(trace, "d"), [Write(5, b"ab"), Sync(), Printed(b"OK")])

    def test_records(self) -> None:
        head = (1).to_bytes(8, "big") + (2).to_bytes(8, "big")
        add, replace = b"\1\0" + head + b"n", b"\1\1" + head + b"n"
        self.assertEqual(file_of(add + b"ab" + add + b"cd" + b"\0", b"n"), b"abcd")
        self.assertEqual(file_of(add + b"ab" + replace + b"cd" + add + b"e", b"n"), b"cd")

    @unittest.skipIf(strace.missing() or not shutil.which("cc"), "strace and a C compiler aren't both here")
    def test_a_disk_that_does_not_sync_is_noticed(self) -> None:
        with tempfile.TemporaryDirectory() as folder:
            case = Case(0, PROGRAM, folder)
            words = ["on", "c.disk", "commit", LOG, "c"]
            self.assertEqual(printed_early(traced(case, words, LINES, "c.disk")[1]), "")
            os.remove(case.path("c.disk"))
            case.write("lazy.c", LAZY.encode())
            subprocess.run(["cc", "-shared", "-fPIC", "-o", "lazy.so", "lazy.c"], cwd=folder, check=True)
            case.write("lazy", f'#!/bin/sh\nLD_PRELOAD={case.path("lazy.so")} exec {PROGRAM} "$@"\n'.encode())
            os.chmod(case.path("lazy"), 0o755)
            lazy = Case(0, case.path("lazy"), folder)
            self.assertNotEqual(printed_early(traced(lazy, words, LINES, "c.disk")[1]), "")
