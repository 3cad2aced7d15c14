"""Faults that are put into the reference machine one after another: each has to be noticed by random.

python3 -m trials.tests.faults [NAME ..] runs random in a copy of trials/ until something differs, and prints after how
many lines it did. Status 1 tells that a fault wasn't noticed within 100,000 lines.
"""
from __future__ import annotations

import os
import re
import shutil
import subprocess
import sys
import tempfile
from typing import Dict, Sequence, Tuple

from trials.rows import RELEASE, TOP

WITHIN = 100_000
SEED = 424242

# the file in machine/, the right text, and the wrong one
FAULTS: Dict[str, Tuple[str, str, str]] = {
    "a rack is passed over": (
        "placement",
        "{nodes[it].rack_in(group) for it in some}",
        "{nodes[it].rack_in(group) for it in some[1:]}",
    ),
    "a factor is off by one": ("placement", "wanted = min(group.factor, ", "wanted = min(group.factor + 1, "),
    "one repeat too few": ("placement", "d - len(racks) < spare)", "d - len(racks) < spare - 1)"),
    "a pending write is left out": (
        "placement",
        "at[image.low] | at[image.high]",
        "at[image.low] | at[image.read]",
    ),
    "reads at the start": ("image", "if it.phase == MID]", "if it.phase != PREPARED]"),
    "two refusals in another order": (
        "history",
        "    yield in_sequence(image, command.node)\n    yield node_state(image, command)",
        "    yield node_state(image, command)\n    yield in_sequence(image, command.node)",
    ),
    "the replaced node is free": (
        "history",
        "in_sequence(image, command.node, command.gone)",
        "in_sequence(image, command.node)",
    ),
    "a lock is forgotten": ("ranges", "(*movement.out, *movement.into)", "movement.into"),
    "a shape that may change is passed over": (
        "ranges",
        "if (wanted, spare) != shape_of",
        "if False and (wanted, spare) != shape_of",
    ),
    "ranges without those that wait": (
        "history",
        "lock_on(image.with_movement(new), new.node)",
        "lock_on(image.with_movement(new), 0)",
    ),
    "a cancel half way ends the movement": ("history", "is_mid = movement.phase == MID", "is_mid = False"),
    "a replaced node stays": ("history", 'in ("leave", "replace") else set()', 'in ("leave",) else set()'),
    "a leaving node is passed over": ("history", 'if it.kind == "leave"]', 'if it.kind == "none"]'),
    "the token of a movement is free": (
        "history",
        "there = set(image.cuts)",
        "there = {it for it, _ in image.tokens}",
    ),
    "an id is looked up late": (
        "session",
        "if epoch is not None:",
        "if epoch is not None and commit_refusal(self.image, command) is None:",
    ),
    "a pending node isn't counted": ("answers", "+ len(sets[1] - sets[0])", "+ len(sets[0] - sets[1])"),
    "a follower skips an entry": ("follower", "if epoch <= self.image.epoch:", "if epoch < self.image.epoch:"),
    "a follower holds a fork": (
        "follower",
        "if self.waiting[epoch] != entry:",
        "if self.waiting[epoch][0] != entry[0]:",
    ),
    "one entry too many waits": ("follower", ">= MOST_WAITING", "> MOST_WAITING"),
    "a reply has the wrong state": (
        "follower",
        "last - since > most and base > since",
        "last - since > most and base >= since",
    ),
    "a torn line is kept": ("lines", 'data.split(b"\\n")[:-1]', 'data.rstrip(b"\\n").split(b"\\n")'),
    "a header of another cluster": ("lines", "said.cluster != cluster", "said.cluster < cluster"),
    "an id that comes again in a file": (
        "lines",
        "if said.entry[0] in epochs:",
        "if epochs.get(said.entry[0]) == 1:",
    ),
    "tokens in a file in any order": ("lines", "all(one < other for one, other", "all(one != other for one, other"),
    "a rule of images is left out": ("valid", "    rule_15,\n", "    rule_14,\n"),
    "two rules of images in another order": ("valid", "    rule_7,\n    rule_8,\n", "    rule_8,\n    rule_7,\n"),
    "an open gate is kept": ("store", 'in (b"", bytes([OPEN]))', 'in (b"",)'),
    "a source that the movement adds": (
        "streams",
        "placed(replication, image.by_id, image.low, token)",
        "placed(replication, image.by_id, image.high, token)",
    ),
    "a vote before the finish": ("members", 'if word == "FINISH":', 'if word == "START":'),
}


def noticed(name: str) -> int:
    """Returns after how many lines a fault is noticed, or 0."""
    module, right, wrong = FAULTS[name]
    with tempfile.TemporaryDirectory(prefix="trials-faults-") as room:
        for folder in ("trials", "bin"):
            shutil.copytree(os.path.join(TOP, folder), os.path.join(room, folder))
        path = os.path.join(room, "trials", "machine", f"{module}.py")
        with open(path, encoding="utf-8") as it:
            text = it.read()
        assert right in text, (name, right)
        with open(path, "w", encoding="utf-8") as it:
            it.write(text.replace(right, wrong))
        words = ["random", "--seed", str(SEED), "--count", str(WITHIN), "--program", os.environ.get("TCM") or RELEASE]
        words += ["--kept", os.path.join(room, "kept"), "--most", "1"]
        command = [sys.executable, os.path.join(room, "bin", "trials"), *words]
        run = subprocess.run(command, stdout=subprocess.PIPE, check=False)
        counted = re.search(r"([\d,]+) lines", run.stdout.decode())
        return int(counted.group(1).replace(",", "")) if run.returncode and counted else 0


def main(names: Sequence[str]) -> int:
    """Puts faults in, and returns the status."""
    missed = 0
    for name in names or FAULTS:
        lines = noticed(name)
        missed += lines == 0
        print(f"{name:40} {f'{lines:>8,} lines' if lines else 'not noticed'}", flush=True)
    return 1 if missed else 0


if __name__ == "__main__":
    sys.exit(main(sys.argv[1:]))
