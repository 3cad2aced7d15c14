"""The kind `memory`: runs in which one request for memory is refused, and the same lines sent again."""
from __future__ import annotations

import atexit
import os
import shutil
import subprocess
import tempfile
from functools import lru_cache

from trials.accepted import DISK, LOG, Script, drawn_script, first_of, goes_on, kept_log, lost_or_changed, words_for
from trials.kind import Case, Ended, Kind

SOURCE = os.path.join(os.path.dirname(os.path.dirname(os.path.realpath(__file__))), "refuse.c")
MOST_REFUSED = 40  # requests of one script


def missing() -> str:
    """Returns why no request can be refused here, "" if one can."""
    return "" if shutil.which("cc") else "no C compiler (cc) is installed"


@lru_cache(maxsize=None)
def shim() -> str:
    """Builds what refuses requests, and returns its path."""
    folder = tempfile.mkdtemp(prefix="trials-refuse-")
    atexit.register(shutil.rmtree, folder, ignore_errors=True)
    path = os.path.join(folder, "refuse.so")
    subprocess.run(["cc", "-O2", "-shared", "-fPIC", "-o", path, SOURCE], check=True)
    return path


def one_case(case: Case) -> str:
    """Refuses requests of one script in turn: all of them, or some if there are many."""
    script = drawn_script(case, case.random.randint(3, 40))
    case.write("lines.script", script.lines)
    on_disk = case.random.random() < 0.3
    refusing(case, script, on_disk, 0)
    most = int(case.read("counted"))
    start_anew(case, on_disk)
    numbers = range(1, most + 1)
    for number in numbers if most <= MOST_REFUSED else sorted(case.random.sample(numbers, MOST_REFUSED)):
        ended = refusing(case, script, on_disk, number)
        case.count += 1
        case.cover(f"status {ended.status}", "on a disk" if on_disk else "over a file")
        wrong = first_of(
            (
                "" if ended.status in (0, 1, 6) else f"the status is {ended.status}",
                lost_or_changed(script, ended.out, kept_log(case, on_disk)),
                goes_on(case, script, on_disk),
            )
        )
        if wrong:
            return f"request {number} of {most} was refused: {wrong}"
        start_anew(case, on_disk)
    return ""


def refusing(case: Case, script: Script, on_disk: bool, number: int) -> Ended:
    """Runs a script with a request for memory refused, none if the number is 0."""
    more = {"LD_PRELOAD": shim(), "REFUSED": str(number), "COUNTED": case.path("counted")}
    return case.run(words_for(on_disk), script.lines, env={**os.environ, **more})


def start_anew(case: Case, on_disk: bool) -> None:
    """Removes the log or the disk."""
    path = case.path(DISK if on_disk else LOG)
    if os.path.exists(path):
        os.remove(path)


KIND = Kind(
    "memory",
    "runs in which one request for memory is refused, and the same lines sent again",
    "requests",
    one_case,
    frozenset({"status 1", "on a disk", "over a file"}),
    2_000,
    missing,
)
