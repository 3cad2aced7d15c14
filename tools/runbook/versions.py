"""What differs between versions of Cassandra in a runbook."""
from __future__ import annotations

from dataclasses import dataclass
from typing import Dict, Tuple


@dataclass(frozen=True)
class Version:
    """A version's own sentences; those marked † are not in the documentation that this was written from."""

    name: str
    together: str  # whether movements of a wave may run at the same time
    held: str  # how our four steps and the version's commands go together
    settled: Tuple[str, ...]  # what is to be seen before the next movement
    undo: Dict[str, str]  # by kind, while the movement is in flight


GOSSIP = Version(
    "4.1 and 5.0",
    "Do the movements of a wave one after another: these versions refuse a second bootstrap while one is in flight, "
    "unless `-Dcassandra.consistent.rangemovement=false` gives up the strict sources.",
    "Cassandra has no epochs here and no step to hold: gaining nodes are written as soon as gossip shows the movement, "
    "and read once its streams are done. So record the four steps in the log when this step is done.",
    (
        "`nodetool status` on each node shows the same: UN for all nodes but those that are known to be down",
        "`nodetool describecluster` shows one schema version, and as unreachable only nodes that are known to be down",
        "`nodetool netstats` on each node shows `Mode: NORMAL` and no streams",
        "after a change of the ring wait two minutes, in which gossip reaches all nodes",
    ),
    {
        "join": "`nodetool bootstrap resume` goes on after a stop. To take it back, stop the node and delete its data, "
        "commitlog, saved_caches and hints: the others forget it.",
        "replace": "Stop the new node and delete its data. The dead node stays DN and may be replaced anew.",
        "leave": "Stop the node and start it again: it keeps its tokens †.",
        "move": "Stop the node and start it again: it keeps its old token †.",
    },
)
CEP_21 = Version(
    "CEP-21 (Cassandra after 5.0)",
    "The movements of a wave may run at the same time: their locked ranges don't overlap.",
    "The node commits the four steps to the log of cluster metadata by itself, one epoch each: `nodetool cms describe` "
    "shows the epoch. Record each step in our log when you see it. A node that is started with "
    "`-Dcassandra.write_survey=true` waits after its streams, written and not read, until `nodetool join` †.",
    (
        "`nodetool cms describe` shows the same epoch on each node",
        "`nodetool status` on each node shows the same: UN for all nodes but those that are known to be down",
        "`nodetool describecluster` shows one schema version",
        "`nodetool netstats` on each node shows `Mode: NORMAL` and no streams",
    ),
    {
        "join": "`nodetool bootstrap resume` goes on after a stop; `nodetool abortbootstrap` takes the join back †.",
        "replace": "Stop the new node, and take the replace back by `nodetool abortbootstrap` †.",
        "leave": "`nodetool abortdecommission` on the node †.",
        "move": "`nodetool abortmove` on the node †.",
    },
)
VERSIONS = {"4.1": GOSSIP, "5.0": GOSSIP, "cep-21": CEP_21}
