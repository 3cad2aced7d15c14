"""The kind `speed`: the program's placements of a full ring beside the drivers' ones, by processor time."""
from __future__ import annotations

import os
import random
from typing import Dict, List

from trials.kind import Case, Kind
from trials.peers import drivers
from trials.peers.cluster import GREATEST, LEAST, Cluster, Keyspace, Node
from trials.peers.drivers import Driver

NODES, TOKENS = 1024, 16  # together the most that a ring has
KEYSPACES = tuple(Keyspace(f"k{i}", {"dc1": 3, "dc2": i}) for i in range(1, 5))


def full_ring(draw: random.Random) -> Cluster:
    """Returns a cluster with as many tokens as a ring may have."""
    tokens = sorted({draw.randint(LEAST, GREATEST) for _ in range(NODES * TOKENS)})
    draw.shuffle(tokens)
    nodes = []
    for i in range(NODES):
        mine = tuple(sorted(tokens[i * TOKENS : (i + 1) * TOKENS]))
        nodes.append(Node(f"dc{i % 2 + 1}", f"r{i % 6}", mine))
    return Cluster(tuple(nodes), KEYSPACES)


def one_case(case: Case) -> str:
    """Compares the processor times of one full ring."""
    cluster = full_ring(case.random)
    times: Dict[str, float] = {"the program": program_time(case, cluster)}
    for name, peer in (("gocql", drivers.gocql), ("the driver for Python", drivers.datastax)):
        driver = peer(False)
        if driver is not None:
            times[name] = driver_time(driver, cluster)
    for name, seconds in times.items():
        case.cover(f"{name}: {seconds:.1f} s")
    slower = [name for name in times if times[name] < times["the program"]]
    return f"faster than the program: {', '.join(slower)}" if slower else ""


def program_time(case: Case, cluster: Cluster) -> float:
    """Returns the processor time in which the program makes the ring and answers all placements."""
    commands = cluster.script()
    lines: List[str] = [f"commit {i} {it}" for i, it in enumerate(commands, 1)]
    lines += [f"place @{len(commands)} {it.name}" for it in cluster.keyspaces]
    before = os.times()
    case.run(["commit"], "".join(f"{it}\n" for it in lines).encode())
    after = os.times()
    return after.children_user + after.children_system - before.children_user - before.children_system


def driver_time(driver: Driver, cluster: Cluster) -> float:
    """Returns the processor time in which a driver answers all placements."""
    before = processor_time(driver.child.pid)
    driver.ask(cluster)
    return processor_time(driver.child.pid) - before


def processor_time(pid: int) -> float:
    """Returns the processor time of a process so far."""
    with open(f"/proc/{pid}/stat", encoding="ascii") as it:
        fields = it.read().rpartition(")")[2].split()
    return (int(fields[11]) + int(fields[12])) / os.sysconf("SC_CLK_TCK")


KIND = Kind(
    "speed",
    "processor time for the placements of a ring of 16,384 tokens, beside the drivers'",
    "rings",
    one_case,
    missing=drivers.missing,
)
