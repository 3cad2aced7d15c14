"""The kind `full`: runs whose files may grow no further, and the same lines sent again with room."""
from __future__ import annotations

import os
import resource
import signal

from trials.accepted import DISK, LOG, drawn_script, first_of, goes_on, kept_log, lost_or_changed, words_for
from trials.kind import Case, Kind


def one_case(case: Case) -> str:
    """Lets the files of one run grow to a random size only."""
    script = drawn_script(case, case.random.randint(5, 80))
    case.write("lines.script", script.lines)
    on_disk = case.random.random() < 0.5
    case.run(words_for(on_disk), script.lines)
    whole = os.path.getsize(case.path(DISK if on_disk else LOG))
    os.remove(case.path(DISK if on_disk else LOG))
    limit = case.random.randrange(whole + 1)

    def small() -> None:
        signal.signal(signal.SIGXFSZ, signal.SIG_IGN)
        resource.setrlimit(resource.RLIMIT_FSIZE, (limit, limit))

    ended = case.run(words_for(on_disk), script.lines, preexec_fn=small)
    case.count += 1
    case.cover("on a disk" if on_disk else "over a file", f"status {ended.status}")
    status = 0 if limit == whole else 6
    return first_of(
        (
            "" if ended.status in (status, 6) else f"the status is {ended.status}, and not {status}",
            lost_or_changed(script, ended.out, kept_log(case, on_disk)),
            goes_on(case, script, on_disk),
        )
    )


KIND = Kind(
    "full",
    "runs whose files may grow no further, and the same lines sent again with room",
    "runs",
    one_case,
    frozenset({"on a disk", "over a file", "status 6"}),
    100,
)
