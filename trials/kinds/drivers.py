"""The kind `drivers`: placements of random clusters beside those of real drivers of Cassandra."""
from __future__ import annotations

from typing import Callable, List, Optional, Sequence, Set, Tuple, Union

from trials.kind import Case, Kind
from trials.peers import drivers
from trials.peers.cluster import GREATEST, Cluster, Keyspace, drawn, read_ranges
from trials.peers.drivers import Answer, Driver
from trials.peers.walk import replicas

Peer = Callable[[bool], Optional[Driver]]
PEERS: Sequence[Tuple[str, Peer]] = (("datastax", drivers.datastax), ("gocql", drivers.gocql))
PANIC = "token map different size to token ring"


def one_case(case: Case) -> str:
    """Tries the placements of one cluster."""
    cluster = drawn(case.random)
    said = placements(case, cluster)
    if isinstance(said, str):
        return said
    found = [walk_difference(cluster, keyspace, sets) for keyspace, sets in zip(cluster.keyspaces, said)]
    for name, peer in PEERS:
        found += peer_differences(case, cluster, said, name, peer)
    case.count = sum(len(it) for it in said)
    cover(case, cluster)
    return "\n".join(it for it in found if it)


def placements(case: Case, cluster: Cluster) -> Union[str, List[List[Set[int]]]]:
    """Returns for each keyspace what the program reads at each token of the ring; a text if it refuses a command."""
    commands = cluster.script()
    lines = [f"commit {i} {it}" for i, it in enumerate(commands, 1)]
    lines += [f"place @{len(commands)} {it.name}" for it in cluster.keyspaces]
    case.write("cluster.script", "".join(f"{it}\n" for it in lines).encode())
    answers = case.run(["commit"], case.read("cluster.script")).out.decode().splitlines()
    refused = [it for it in answers[: len(commands)] if not it.startswith("OK ")]
    if refused:
        return f"the program refuses a command: {refused[0]}"
    found, at = [], len(commands)
    for _ in cluster.keyspaces:
        count = int(answers[at].split()[3])
        found.append(at_tokens(cluster, read_ranges(answers[at + 1 : at + 1 + count])))
        at += 1 + count
    return found


def at_tokens(cluster: Cluster, ranges: Sequence[Tuple[int, Tuple[int, ...]]]) -> List[Set[int]]:
    """Returns the nodes at each token of the ring; the range past the last token has those of the first."""
    of_last = dict(ranges)
    tokens = [token for token, _ in cluster.ring]
    if tokens[-1] != GREATEST and set(of_last[GREATEST]) != set(of_last[tokens[0]]):
        raise ValueError("both ends of the ring are one range, and have unlike nodes")
    return [set(of_last[it]) for it in tokens]


def walk_difference(cluster: Cluster, keyspace: Keyspace, said: List[Set[int]]) -> str:
    """Returns where the program and Cassandra's walk differ."""
    for (token, _), nodes in zip(cluster.ring, said):
        want = set(replicas(cluster, keyspace, token))
        if nodes != want:
            return f"{keyspace.said}: at {token} the program reads {sorted(nodes)}, Cassandra's walk {sorted(want)}"
    return ""


def peer_differences(
    case: Case, cluster: Cluster, said: List[List[Set[int]]], name: str, peer: Peer
) -> List[str]:
    """Returns where the program and a driver differ, unless a fault of the driver excuses it."""
    driver = peer(False)
    if driver is None:
        case.cover(f"{name} isn't installed")
        return []
    case.cover(name)
    found = []
    for i, (answer, nodes) in enumerate(zip(driver.ask(cluster), said)):
        if agrees(answer, nodes):
            continue
        keyspace = cluster.keyspaces[i]
        sign = sign_of(answer)
        mended = peer(True)
        if sign and mended is not None and agrees(mended.ask(cluster)[i], nodes):
            case.cover(f"{name}: {sign}")
        else:
            found.append(f"{name}, {keyspace.said}: {answer.fault or first_unlike(cluster, answer, nodes)}")
    return found


def agrees(answer: Answer, nodes: Sequence[Set[int]]) -> bool:
    """Returns whether a driver has the same replicas at each token, and none twice."""
    return len(answer.replicas) == len(nodes) and all(
        len(it) == len(want) and set(it) == want for it, want in zip(answer.replicas, nodes)
    )


def sign_of(answer: Answer) -> str:
    """Returns the sign of a known fault of a driver: a node twice, or a panic on datacenters without nodes."""
    if answer.fault:
        return "panics where a keyspace names as many datacenters as have nodes" if PANIC in answer.fault else ""
    is_twice = any(len(set(it)) < len(it) for it in answer.replicas)
    return "takes a node twice" if is_twice else ""


def first_unlike(cluster: Cluster, answer: Answer, nodes: Sequence[Set[int]]) -> str:
    """Returns the first token where a driver has other replicas."""
    for (token, _), it, want in zip(cluster.ring, answer.replicas, nodes):
        if set(it) != want or len(it) != len(want):
            return f"at {token} the driver has {list(it)}, the program {sorted(want)}"
    return f"the driver has {len(answer.replicas)} tokens, the program {len(nodes)}"


def cover(case: Case, cluster: Cluster) -> None:
    """Counts what came up."""
    for keyspace in cluster.keyspaces:
        for dc, factor in keyspace.factors.items():
            racks = {it.rack for it in cluster.nodes if it.dc == dc}
            case.cover("no node in a datacenter" if dc and not racks else "nodes in a datacenter")
            if dc and racks:
                order = "fewer than" if len(racks) < factor else "as many as" if len(racks) == factor else "more than"
                case.cover(f"racks {order} the factor")
    case.cover(*(["joined by steps"] if cluster.by_steps else []))
    case.cover(*(["several tokens a node"] if any(len(it.tokens) > 1 for it in cluster.nodes) else []))
    tokens = {token for token, _ in cluster.ring}
    case.cover(*(f"the token {it}" for it in (-(2**63), GREATEST) if it in tokens))


KIND = Kind(
    "drivers",
    "placements of random clusters beside those of the DataStax driver for Python and of gocql",
    "ranges",
    one_case,
    frozenset(
        {
            "no node in a datacenter",
            "racks fewer than the factor",
            "racks as many as the factor",
            "racks more than the factor",
            "joined by steps",
            "several tokens a node",
            f"the token {-(2**63)}",
            f"the token {GREATEST}",
        }
    ),
    200_000,
    drivers.missing,
)
