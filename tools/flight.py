"""Trials of commands on a copy of a log."""
from __future__ import annotations

from typing import Dict, List, Sequence

from tools.answers import Placement, is_refusal, read_placement
from tools.commits import accepted
from tools.errors import Refused
from tools.log import fresh_ids
from tools.program import Session


class Trial:
    """A run on a copy of a log, whose commits have to be accepted."""

    def __init__(self, session: Session, log: str, epoch: int) -> None:
        self.session, self.epoch, self.fresh = session, epoch, fresh_ids(log)

    def try_commit(self, command: str) -> List[str]:
        """Commits a command, and returns its answer."""
        answer = self.session.ask(f"commit {next(self.fresh)} {command}")
        if not is_refusal(answer):
            self.epoch = accepted(answer, self.epoch + 1)
        return answer

    def commit(self, command: str) -> None:
        """Commits a command that has to be accepted."""
        answer = self.try_commit(command)
        if is_refusal(answer):
            raise Refused(f"on a copy, tcm refuses `{command[:80]}`: {answer[0]}")

    def places(self, keyspaces: Sequence[str]) -> Dict[str, Placement]:
        """Returns the placements of keyspaces now."""
        answers = self.session.ask_all([f"place @{self.epoch} {it}" for it in keyspaces])
        return {it: read_placement(answer) for it, answer in zip(keyspaces, answers)}
