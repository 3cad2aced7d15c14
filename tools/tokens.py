"""Tokens for the joins among wishes: each join is tried on a copy of the log, so that the next one begins with it."""
from __future__ import annotations

from dataclasses import dataclass
from typing import Dict, List, Optional, Sequence, Tuple

from tools.answers import Node, is_refusal
from tools.balance import Group, balanced, groups_of
from tools.flight import Trial
from tools.log import state
from tools.terms import STEPS
from tools.wishes import Wish, draw_tokens


@dataclass
class Chooser:
    """Chooses tokens on a copy of a log, which has no movement in flight."""

    copy: str
    trial: Trial
    seed: int

    def choose(self, wish: Wish, node: int, place: Tuple[str, str]) -> List[int]:
        """Returns tokens for a node that joins a datacenter and a rack."""
        now = state(self.copy)
        taken = {token for it in now.nodes.nodes for token in it.tokens}
        joining = Node(node, wish.name, *place, "JOINED", (0,))
        nodes = [*(it for it in now.nodes.nodes if it.id != node), joining]
        keyspace, group = self.group_for(now.replications, nodes, place[0])
        tokens: List[int] = []
        if group is not None and len(group.racks) > 1:
            ring = [(token, it.id) for it in now.nodes.nodes for token in it.tokens]
            tokens = balanced(node, wish.draws, ring, group, self.trial.places([keyspace])[keyspace])
        more = draw_tokens(wish.name, wish.draws - len(tokens), self.seed, taken | set(tokens))
        return sorted([*tokens, *more])

    def group_for(
        self, replications: Dict[str, str], nodes: Sequence[Node], dc: str
    ) -> Tuple[str, Optional[Group]]:
        """Returns the group that has most replicas in a datacenter, with its keyspace; one with racks is preferred."""
        best: Tuple[int, int, str, Optional[Group]] = (0, 0, "", None)
        for keyspace in sorted(replications, reverse=True):
            groups = groups_of(replications[keyspace], nodes)
            for name in (dc, ""):
                if name in groups and (bool(name), groups[name].factor) >= best[:2]:
                    best = (int(bool(name)), groups[name].factor, keyspace, groups[name])
        return best[2], best[3]

    def settle(self, commands: Sequence[str]) -> None:
        """Tries the commands of a movement, up to the first that is refused."""
        for command in commands:
            if is_refusal(self.trial.try_commit(command)):
                return

    def settle_all(self) -> None:
        """Brings the movements in flight to their ends."""
        for it in state(self.copy).movements:
            for step in STEPS[1:]:
                self.trial.try_commit(f"{step}-{it.kind} {it.node}")
