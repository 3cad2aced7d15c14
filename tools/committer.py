"""Commits the commands of a script: the program tells the ids of nodes, and each answer is checked."""
from __future__ import annotations

from dataclasses import dataclass
from typing import Dict, List, Optional

from tools.answers import is_refusal, read_nodes
from tools.commits import accepted
from tools.errors import NotAccepted, Refused, Unclear
from tools.names import Names
from tools.program import Session
from tools.script import Script, Step, node_words, translate
from tools.terms import NUMBER
from tools.text import shown


@dataclass(frozen=True)
class Done:
    """A command that is in the log, at an epoch; `again` if it was there already."""

    step: Step
    epoch: int
    again: bool


class Committer:
    """Commits to a session whose last epoch is known; `used` has the epochs of the ids in the log."""

    def __init__(self, session: Session, names: Names, epoch: int, used: Dict[int, int]) -> None:
        self.session, self.names, self.epoch, self.used = session, names, epoch, used
        self.ids: Optional[Dict[str, int]] = None  # (of nodes now, once they were asked for)

    def commit(self, script: Script, step: Step) -> Done:
        """Commits a command, which has to be accepted, or to be in the log already."""
        before = self.used.get(step.id)
        try:
            command = self.command_of(step, self.epoch if before is None else before - 1)
            answer = self.session.ask(f"commit {step.id} {command}")
            if is_refusal(answer):
                why = f"{step.said}: {shown(answer[0])}; see docs/operators.md, What each refusal means"
                raise NotAccepted(f"{script.name}:{step.line}: {why}")
            epoch = accepted(answer, self.epoch + 1 if before is None else before, before is not None)
        except Unclear as why:
            look = "it may be in the log; look by bin/cluster status, and apply the script again to go on"
            raise Unclear(f"{script.name}:{step.line}: {why}; {look}") from why
        except NotAccepted:
            raise
        except Refused as why:
            raise type(why)(f"{script.name}:{step.line}: {why}") from why
        if before is None:
            self.epoch, self.used[step.id] = epoch, epoch
            if step.words[0] in ("register", "unregister"):
                self.ids = None
        return Done(step, epoch, before is not None)

    def command_of(self, step: Step, epoch: int) -> str:
        """Returns a command with the names of the log, and in the place of nodes their ids at an epoch."""
        said = translate(step.words, self.names)
        count = node_words(said[0])
        if not count:
            return " ".join(said)
        ids = self.nodes_at(epoch)
        for it in said[1 : 1 + count]:
            if it not in ids and not NUMBER.fullmatch(it):
                raise Refused(f"no node {shown(it)} is in the log or registered before")
        return " ".join([said[0], *(str(ids.get(it, it)) for it in said[1 : 1 + count]), *said[1 + count :]])

    def nodes_at(self, epoch: int) -> Dict[str, int]:
        """Returns the ids of nodes by their names, as the program tells them."""
        if epoch != self.epoch:
            return self.asked(epoch)
        if self.ids is None:
            self.ids = self.asked(epoch)
        return self.ids

    def asked(self, epoch: int) -> Dict[str, int]:
        """Asks for the nodes at an epoch."""
        return {it.name: it.id for it in read_nodes(self.session.ask(f"nodes @{epoch}")).nodes}


def in_order(script: Script, found: List[Done]) -> None:
    """Checks that the commands that were in the log are the first ones, in their order."""
    for before, after in zip(found, found[1:]):
        if after.again and (not before.again or before.epoch >= after.epoch):
            why = f"it is in the log at epoch {after.epoch}, and line {before.step.line} isn't before it; see --from"
            raise script.at(after.step, why)
