"""The steps of each kind of movement, as Cassandra's documentation tells them."""
from __future__ import annotations

from typing import Callable, Dict, List, Tuple

from tools.runbook.steps import Block, Step, Task
from tools.runbook.versions import Version
from tools.terms import STEPS

DONE = {"": 0, "PREPARED": 1, "STARTED": 2, "MID": 3}  # steps of a movement that the log has, by its phase


def steps_of(task: Task, version: Version) -> List[Step]:
    """Returns the steps that carry out a movement."""
    return RECIPES[task.kind](task, version)


def records(task: Task) -> Tuple[str, ...]:
    """Returns the commands of a movement that the log lacks."""
    return tuple(task.command(it) for it in STEPS[DONE[task.phase] :])


def machine(task: Task) -> Tuple[Block, ...]:
    """Returns the files of a machine that joins, and how it is started."""
    yaml = [f"num_tokens: {max(1, len(task.tokens))}"]
    if task.kind == "join":
        yaml.append(f"initial_token: {','.join(str(it) for it in task.tokens)}")
    yaml += [
        f"auto_bootstrap: {'false   # rebuild fills it' if task.opens_dc else 'true'}",
        "# cluster_name, partitioner, snitch and seeds as on the other nodes; the node itself is no seed",
    ]
    blocks = [
        Block(f"{task.node}, cassandra-rackdc.properties", f"dc={task.dc}\nrack={task.rack}", "ini"),
        Block(f"{task.node}, cassandra.yaml", "\n".join(yaml), "yaml"),
    ]
    if task.kind == "replace":
        option = f"-Dcassandra.replace_address_first_boot={task.gone}"
        blocks.append(Block(f"{task.node}, jvm-server.options", option, "text"))
    return (*blocks, Block(task.node, "sudo systemctl start cassandra"))


def join(task: Task, version: Version) -> List[Step]:
    """Returns the steps of a join."""
    start = Step(
        f"Start {task.node} with its tokens",
        machine(task),
        records(task),
        (
            f"`nodetool netstats` on {task.node}: `Mode: JOINING`, and streams from the sources above",
            f"`nodetool status` elsewhere: {task.node} is UJ",
        ),
        f"{task.node} is UN on each node",
        f"{version.undo['join']} Once it is UN: `nodetool decommission` on {task.node}.",
        (version.held,),
    )
    return [start, *([rebuild(task)] if task.opens_dc else []), *cleanup(task)]


def rebuild(task: Task) -> Step:
    """Returns the step that fills the first nodes of a datacenter."""
    return Step(
        f"Fill the datacenter {task.dc}",
        (Block(task.node, "nodetool rebuild -- DATACENTER   # one that has the data"),),
        look=(f"`nodetool netstats` on {task.node}: streams",),
        go_on="rebuild has ended without an error on each node of the datacenter",
        notes=(
            f"No node of {task.dc} is in the ring before, so {task.node} starts without data. Start all nodes of the "
            "datacenter, give the keyspaces their factor there by ALTER KEYSPACE, and then rebuild each node. Until "
            "then clients use LOCAL_QUORUM, in other datacenters alone.",
        ),
    )


def replace(task: Task, version: Version) -> List[Step]:
    """Returns the steps of a replace."""
    start = Step(
        f"Start {task.node} in the place of {task.gone}",
        machine(task),
        records(task),
        (
            f"`nodetool netstats` on {task.node}: `Mode: JOINING`, and streams",
            f"`nodetool status` elsewhere: {task.gone} is DN until {task.node} is UN",
        ),
        f"{task.node} is UN, and `nodetool status` shows {task.gone} on no node",
        version.undo["replace"],
        (
            version.held,
            "The option counts at the first start alone. Take it out of jvm-server.options afterwards.",
        ),
    )
    return [*([] if task.gone_is_down else [stop(task)]), start, repair(task)]


def stop(task: Task) -> Step:
    """Returns the step that stops a node which is to be replaced."""
    return Step(
        f"Stop {task.gone}",
        (Block(task.gone, "nodetool drain\nsudo systemctl disable --now cassandra"),),
        look=(f"`nodetool status` elsewhere: {task.gone} is DN",),
        go_on=f"{task.gone} is DN on each node",
        undo=f"start {task.gone} again, as long as {task.node} was not started",
        notes=(
            f"Cassandra replaces only a node that is down, so quorums lose the replica {task.gone} meanwhile. To lose "
            f"none, join {task.node} beside it and then decommission {task.gone}.",
        ),
    )


def repair(task: Task) -> Step:
    """Returns the step that repairs a node whose strict source was down."""
    return Step(
        f"Repair {task.node}",
        (Block(task.node, "nodetool repair --full"),),
        look=("`nodetool repair_admin list`, `nodetool compactionstats`",),
        go_on="the repair has ended without an error",
        notes=(
            f"{task.gone} is the strict source of each range and can't send it. A write that {task.gone} and too few "
            f"others had is missing on {task.node}, and until the repair a read at QUORUM can miss it.",
        ),
    )


def leave(task: Task, version: Version) -> List[Step]:
    """Returns the steps of a leave."""
    if task.node_is_down:
        return remove(task, version)
    step = Step(
        f"Decommission {task.node}",
        (Block(task.node, "nodetool decommission"),),
        records(task),
        (
            f"`nodetool netstats` on {task.node}: `Mode: LEAVING`, and streams to the nodes above",
            f"`nodetool status` elsewhere: {task.node} is UL",
        ),
        f"`nodetool netstats` on {task.node} shows `Mode: DECOMMISSIONED`, and no node shows it in `nodetool status`",
        f"{version.undo['leave']} Once it is gone: delete its data and join it as a new node.",
        (version.held,),
    )
    return [step]


def remove(task: Task, version: Version) -> List[Step]:
    """Returns the steps of a leave of a node that is down."""
    removal = Step(
        f"Remove {task.node}, which is down",
        (
            Block(
                "any node that is up",
                "nodetool status                # has the Host ID\nnodetool removenode HOST_ID\nnodetool removenode status",
            ),
        ),
        records(task),
        ("`nodetool removenode status`", "`nodetool netstats` on the nodes that gain ranges"),
        f"no node shows {task.node} in `nodetool status`",
        "none. `nodetool removenode force` ends a removal that hangs, without its streams",
        (version.held,),
    )
    gaining = tuple(dict.fromkeys(it.to for it in task.streams))
    fill = Step(
        "Repair the nodes that gained ranges",
        tuple(Block(it, "nodetool repair --full") for it in gaining),
        go_on="each repair has ended without an error",
        notes=(f"{task.node} is the strict source of each range and can't send it: others did.",),
    )
    return [removal, fill]


def move(task: Task, version: Version) -> List[Step]:
    """Returns the steps of a move."""
    step = Step(
        f"Move {task.node}",
        (Block(task.node, f"nodetool move -- {task.tokens[0]}"),),
        records(task),
        (
            f"`nodetool netstats` on {task.node}: `Mode: MOVING`, and streams",
            f"`nodetool status` elsewhere: {task.node} is UM",
        ),
        f"{task.node} is UN, and `nodetool ring` shows its new token on each node",
        f"{version.undo['move']} Afterwards: move it back.",
        (version.held, "Only a node with one token can be moved."),
    )
    return [step, *cleanup(task)]


def cleanup(task: Task) -> List[Step]:
    """Returns the step that drops what nodes no longer own."""
    if not task.cleanup:
        return []
    return [
        Step(
            "Clean up",
            tuple(Block(it, "nodetool cleanup") for it in task.cleanup),
            look=("`nodetool compactionstats`, and the room that is left on the disk",),
            go_on="each cleanup has ended without an error",
            notes=("One node at a time, and none while a node joins, leaves or moves.",),
        )
    ]


RECIPES: Dict[str, Callable[[Task, Version], List[Step]]] = {
    "join": join,
    "replace": replace,
    "leave": leave,
    "move": move,
}
