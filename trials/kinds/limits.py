"""Each limit of docs/language.md: what is right at it and one past it. Each seed is one limit in turn."""
from __future__ import annotations

import os
from typing import Any, Callable, Dict, List, Sequence

from trials.both import Both
from trials.drawn.full import SCRIPTS, epochs_full, lines
from trials.drawn.states import nodes_of
from trials.kind import Case, Ended, Kind
from trials.kinds.random_lines import sparse
from trials.machine.lines import entry_line, header_line, image_line
from trials.machine.runs import given
from trials.machine.session import Session
from trials.machine.terms import GREATEST, LEAST, MOST_BYTES, MOST_FILE_LINE, MOST_LINE, MOST_ROUNDS


def script(both: Both, *commands: str) -> None:
    """Runs a script."""
    both.run([b"commit"], given("".join(f"{it}\n" for it in commands).encode()))


def words_of_lines(both: Both) -> None:
    """Words: names, ids, nodes, factors, datacenters, tokens, MAX, and the bytes of a line."""
    numbers = (2**32 - 1, 2**32, 2**63 - 1, 2**63, 2**64 - 1, 2**64)
    commits = [f"register {'a' * it} dc r" for it in (32, 33)]
    commits += [f"register n {'a' * it} r" for it in (32, 33)] + [f"register m dc {'a' * it}" for it in (32, 33)]
    commits += [f"keyspace k simple {it}" for it in (0, 1, 16, 17)]
    commits += [f"keyspace k topology {' '.join(f'd{it}:1' for it in range(count))}" for count in (0, 1, 16, 17)]
    commits += [f"unsafe-join {it} 1" for it in numbers]
    commits += [f"unsafe-join 1 {it}" for it in (LEAST - 1, GREATEST + 1)]
    commits += [f"unsafe-join 1 {' '.join(map(str, range(count)))}" for count in (257, 256)]
    commits += [f"prepare-join 2 {LEAST} {GREATEST}", f"prepare-move 2 {2**63}"]
    sent = [f"commit {number} {it}" for number, it in enumerate(commits)]
    sent += [f"commit {it} cancel 9" for it in numbers] + [f"deliver f {it}" for it in numbers]
    sent += ["follower f", *(f"ask f {it}" for it in (0, 1, 1024, 1025)), *(f"quorum @4 k {it}" for it in numbers)]
    sent += ["place @4 k " + "x" * count for count in (MOST_LINE - 11, MOST_LINE - 10)]
    script(both, *sent)


def files_of_a_replay(both: Both) -> None:
    """Files of a replay."""
    both.put(b"log", header_line("c1"))
    for count in (64, 65):
        both.run([b"replay", *[b"log"] * count])


def members(both: Both) -> None:
    """Nodes in FROM or TO."""
    both.put(b"log", header_line("c1"))
    sent = b"".join(b"commit %d register n%d d r\n" % (it, it) for it in range(40))
    both.run([b"commit", b"log", b"c1"], given(sent))
    for one, other in ((16, 17), (17, 16), (16, 16)):
        ids = [",".join(map(str, range(1, it + 1))).encode() for it in (one, other)]
        both.run([b"cms", b"log", *ids])


def rounds(both: Both) -> None:
    """Rounds of a generated script."""
    at, past = (both.case.run(["gen", "1", str(MOST_ROUNDS + it)]) for it in (0, 1))
    if (at.status, past.status) != (0, 2) or not at.out.startswith(b"GEN 1 3000\nLINES "):
        both.differences.append(f"{at} and {past}\n")


def lines_of_files(both: Both) -> None:
    """Bytes in a line of a file."""
    session = Session()
    session.answer(b"commit 1 register a dc1 r1")
    line = entry_line(1, session.entries[0])
    for count in (MOST_FILE_LINE, MOST_FILE_LINE + 1):
        both.put(b"log", header_line("c1") + line[:-1].rjust(count) + b"\n")
        both.run([b"replay", b"log"])
        both.run([b"commit", b"log", b"c1"])


def states(both: Both) -> None:
    """Nodes, epochs and tokens of a node in a state."""
    for image in (nodes_of(1024, 0), nodes_of(1025, 0), nodes_of(2, 256), nodes_of(2, 257), nodes_of(64, 256)):
        both.put(b"state", image_line(image))
        both.run([b"replay", b"state"])


def expect(both: Both, ended: Ended, status: int, out: bytes) -> None:
    """Notes a run that ended otherwise."""
    if (ended.status, ended.out) != (status, out):
        both.differences.append(f"status {ended.status} and {ended.out[:200]!r}, and not {status} and {out!r}\n")


def bytes_of_files(both: Both) -> None:
    """Bytes of a file: one without a line feed is an empty log."""
    sparse(both.case)
    expect(both, both.case.run(["snapshot", "large", "1"]), 8, b"TOO-LARGE 536870912\n")
    os.truncate(both.case.path("large"), MOST_BYTES)
    expect(both, both.case.run(["snapshot", "large", "1"]), 7, b"NO EPOCH 0\n")
    os.remove(both.case.path("large"))


def bytes_of_the_input(both: Both) -> None:
    """Bytes of the input: they are one bad line."""
    sparse(both.case)
    for size, status, out in ((MOST_BYTES + 1, 8, b"TOO-LARGE 536870912\n"), (MOST_BYTES, 0, b"NO BAD-LINE\n")):
        os.truncate(both.case.path("large"), size)
        with open(both.case.path("large"), "rb") as large:
            more: Dict[str, Any] = {"stdin": large}
            expect(both, both.case.run(["commit"], **more), status, out)
    os.remove(both.case.path("large"))


LONG = (*SCRIPTS, epochs_full)  # scripts that come to a limit
CASES: Sequence[Callable[[Both], None]] = (
    words_of_lines,
    files_of_a_replay,
    members,
    rounds,
    lines_of_files,
    states,
    bytes_of_files,
    bytes_of_the_input,
)
NAMES: List[str] = [it.__name__ for it in (*CASES, *LONG)]


def one_case(case: Case) -> str:
    """Tries the limit whose turn it is."""
    both = Both(case)
    turn = case.seed % len(NAMES)
    if turn < len(CASES):
        CASES[turn](both)
    else:
        both.run([b"commit"], lines(case.random, LONG[turn - len(CASES)]))
    case.cover(NAMES[turn])
    case.count = 1
    return "".join(both.differences)


KIND = Kind(
    "limits",
    "each limit, at it and one past it",
    "limits",
    one_case,
    frozenset(NAMES),
    len(NAMES),
)
