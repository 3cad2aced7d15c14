"""The kind `kills`: runs that are killed by signal 9 at a random moment, and the same lines sent again."""
from __future__ import annotations

import subprocess
import time

from trials.accepted import Script, drawn_script, goes_on, kept_log, lost_or_changed, words_for
from trials.kind import Case, Kind

PIECE = 400  # bytes of a script that are written at a time


def one_case(case: Case) -> str:
    """Kills runs of one script up to three times, and lets the last one end."""
    script = drawn_script(case, case.random.randint(20, 200))
    case.write("lines.script", script.lines)
    on_disk = case.random.random() < 0.5
    begun = time.monotonic()
    case.run(words_for(on_disk) if on_disk else ["commit", "timed.log", "c"], b"")
    slow = time.monotonic() - begun + len(script.lines) / PIECE * 0.002
    for _ in range(case.random.randint(1, 3)):
        wrong = killed_once(case, script, on_disk, case.random.random() * slow)
        if wrong:
            return wrong
    return goes_on(case, script, on_disk)


def killed_once(case: Case, script: Script, on_disk: bool, after: float) -> str:
    """Runs the script, kills the run after some seconds, and returns what is wrong then."""
    with open(case.path("printed"), "wb") as out:
        with subprocess.Popen(
            [case.program, *words_for(on_disk)], cwd=case.folder, stdin=subprocess.PIPE, stdout=out
        ) as child:
            assert child.stdin
            end = time.monotonic() + after
            try:
                for at in range(0, len(script.lines), PIECE):
                    if time.monotonic() > end:
                        break
                    child.stdin.write(script.lines[at : at + PIECE])
                    child.stdin.flush()
                    time.sleep(min(0.001, max(0.0, end - time.monotonic())))
            except BrokenPipeError:
                return "the program ended before it was killed"
            child.kill()
            child.stdin.close()
    printed = case.read("printed")
    case.count += 1
    case.cover("on a disk" if on_disk else "over a file", "nothing printed" if not printed else "answers printed")
    return lost_or_changed(script, printed, kept_log(case, on_disk))


KIND = Kind(
    "kills",
    "runs that are killed by signal 9 at a random moment, and the same lines sent again",
    "kills",
    one_case,
    frozenset({"on a disk", "over a file", "answers printed"}),
    100,
)
