"""The walks of Cassandra 4.1 (`SimpleStrategy` and `NetworkTopologyStrategy`), written after its code alone."""
from __future__ import annotations

from typing import Dict, Iterator, List, Sequence, Set, Tuple

from trials.peers.cluster import Cluster, Keyspace

Ring = Sequence[Tuple[int, int]]


def ring_from(ring: Ring, token: int) -> Iterator[int]:
    """Gives the nodes of the ring from the first token that isn't less than this one."""
    first = next((i for i, it in enumerate(ring) if it[0] >= token), 0)
    for i in range(len(ring)):
        yield ring[(first + i) % len(ring)][1]


def replicas(cluster: Cluster, keyspace: Keyspace, token: int) -> List[int]:
    """Returns the natural replicas of a token, in the order in which the walk takes them."""
    if "" in keyspace.factors:
        return simple(cluster, keyspace.factors[""], token)
    return topology(cluster, keyspace.factors, token)


def simple(cluster: Cluster, factor: int, token: int) -> List[int]:
    """`SimpleStrategy.calculateNaturalReplicas`."""
    found: List[int] = []
    for node in ring_from(cluster.ring, token):
        if len(found) < factor and node not in found:
            found.append(node)
    return found


class Datacenter:
    """`NetworkTopologyStrategy.DatacenterEndpoints`."""

    def __init__(self, factor: int, racks: int, nodes: int) -> None:
        self.left = min(factor, nodes)
        self.repeats = factor - racks
        self.racks: Set[str] = set()

    def add(self, node: int, rack: str, found: List[int]) -> bool:
        """`addEndpointAndCheckIfDone`: takes a node if it may, and returns whether it was the last one."""
        if self.left == 0 or node in found:
            return False
        if rack not in self.racks:
            self.racks.add(rack)
        elif self.repeats <= 0:
            return False
        else:
            self.repeats -= 1
        found.append(node)
        self.left -= 1
        return self.left == 0


def topology(cluster: Cluster, factors: Dict[str, int], token: int) -> List[int]:
    """`NetworkTopologyStrategy.calculateNaturalReplicas`."""
    datacenters = {}
    for dc, factor in factors.items():
        here = [it for it in cluster.nodes if it.dc == dc]
        if factor > 0 and here:
            datacenters[dc] = Datacenter(factor, len({it.rack for it in here}), len(here))
    left, found = len(datacenters), []  # type: int, List[int]
    for node in ring_from(cluster.ring, token):
        if left == 0:
            break
        it = cluster.nodes[node - 1]
        if it.dc in datacenters and datacenters[it.dc].add(node, it.rack, found):
            left -= 1
    return found
