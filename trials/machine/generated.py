"""Generated scripts, and the summary of their answers."""
from __future__ import annotations

from collections import Counter
from typing import Iterator, List

from trials.machine.session import Session

REFUSALS = (
    "NAME-TAKEN",
    "NODES-FULL",
    "NO-NODE",
    "NODE-STATE",
    "IN-SEQUENCE",
    "NO-SEQUENCE",
    "WRONG-STEP",
    "TOKEN-TAKEN",
    "NO-TOKENS",
    "TOKENS-FULL",
    "NOT-ONE-TOKEN",
    "OTHER-RACK",
    "NOT-IDLE",
    "NO-KEYSPACE",
    "KEYSPACES-FULL",
    "TOO-FEW-NODES",
    "LOCKED",
    "ID-REUSED",
    "EPOCHS-FULL",
    "KEYSPACE-LOCKED",
)
STEPS = (
    "start-join",
    "mid-join",
    "finish-join",
    "prepare-leave",
    "start-leave",
    "mid-leave",
    "finish-leave",
    "unregister",
)


def draws(start: int) -> Iterator[int]:
    """Gives the tokens that are drawn."""
    s = start % 2**31
    while True:
        s = (s * 1103515245 + 12345) % 2**31
        yield s * 8000000000 - 8589934592000000000


def opening() -> List[str]:
    """Returns the commands of the opening."""
    nodes = range(1, 25)
    registers = [f"register n{i} dc{2 - i % 2} r{(i - 1) // 2 % 3 + 1}" for i in nodes]
    joins = [f"unsafe-join {i} {(i - 1) * 700000000000000000 - 8000000000000000000}" for i in nodes]
    return [*registers, *joins, "keyspace ks simple 3", "keyspace kt topology dc1:2 dc2:2"]


def round_commands(j: int, tokens: Iterator[int]) -> List[str]:
    """Returns the commands of a round."""
    both = (23 + 2 * j, 24 + 2 * j)
    registers = [f"register a{j} dc1 r1", f"register b{j} dc2 r2"]
    prepares = [f"prepare-join {it} {next(tokens)}" for it in both]
    return [*registers, *prepares, *(f"{step} {it}" for step in STEPS for it in both)]


class Counted:
    """A session that counts what it is asked and answers."""

    def __init__(self) -> None:
        self.session, self.ids, self.lines = Session(), 0, 0
        self.answers: Counter[str] = Counter()

    def ask(self, line: str) -> None:
        """Answers a line."""
        words = self.session.answer(line.encode())[0].split(" ")
        self.lines += 1
        if line.startswith("commit"):
            self.answers["OK" if words[0] == "OK" else words[1]] += 1

    def commit(self, command: str) -> None:
        """Commits a command under the next id."""
        self.ids += 1
        self.ask(f"commit {self.ids} {command}")

    def deliver(self, first: int) -> None:
        """Delivers the epochs from the first on, the last first."""
        for epoch in range(self.session.image.epoch, first - 1, -1):
            self.ask(f"deliver f {epoch}")


def summary(start: int, rounds: int) -> List[str]:
    """Returns the summary of a generated script."""
    counted, tokens = Counted(), draws(start)
    for it in opening():
        counted.commit(it)
    counted.ask("follower f")
    counted.deliver(1)
    for j in range(1, rounds + 1):
        first = counted.session.image.epoch + 1
        for it in round_commands(j, tokens):
            counted.commit(it)
        counted.deliver(first)
    refused = [f"REFUSED {i} {counted.answers[it]}" for i, it in enumerate(REFUSALS, 1) if counted.answers[it]]
    return [
        f"GEN {start} {rounds}",
        f"LINES {counted.lines}",
        f"OK {counted.answers['OK']}",
        *refused,
        f"EPOCH {counted.session.image.epoch}",
        f"FOLLOWER {counted.session.followers['f'].image.epoch}",
    ]
