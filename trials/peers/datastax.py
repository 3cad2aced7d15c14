"""Answers clusters by the DataStax driver for Python: a JSON line each, on standard input.

For each keyspace it prints the replicas of each token, in the order of the ring, as `TokenMap` has them. With `--mended`
a node that was skipped for its rack isn't skipped twice. Run by a Python that has the driver.
"""
from __future__ import annotations

import json
import os
import sys
import types
from typing import Any, Dict, List

import cassandra  # type: ignore[import]
from cassandra import metadata

FAULT = "if host in replicas:"
MENDED = "if host in replicas or host in skipped_hosts:"


def mended() -> Any:
    """Returns the driver's module with the line mended that skips a node a second time."""
    with open(os.path.join(os.path.dirname(cassandra.__file__), "metadata.py"), encoding="utf-8") as it:
        source = it.read()
    if source.count(FAULT) != 1:
        sys.exit("the driver's walk is another one than that which is mended here")
    module = types.ModuleType("cassandra.metadata_mended")
    exec(compile(source.replace(FAULT, MENDED), "metadata.py", "exec"), module.__dict__)  # pylint: disable=exec-used
    return module


class Host:
    """What the driver asks of a host."""

    def __init__(self, number: int, dc: str, rack: str) -> None:
        self.number, self.datacenter, self.rack = number, dc, rack


def strategy_of(driver: Any, factors: Dict[str, int]) -> Any:
    """Returns the driver's strategy of a keyspace."""
    if "" in factors:
        return driver.SimpleStrategy({"replication_factor": str(factors[""])})
    return driver.NetworkTopologyStrategy({dc: str(it) for dc, it in factors.items()})


def replicas_of(driver: Any, cluster: Dict[str, Any]) -> List[List[List[int]]]:
    """Returns for each keyspace the replicas of each token."""
    hosts = [Host(i, dc, rack) for i, (dc, rack) in enumerate(cluster["nodes"], 1)]
    owners = {driver.Murmur3Token(int(token)): hosts[node - 1] for token, node in cluster["ring"]}
    ring = [driver.Murmur3Token(int(token)) for token, _ in cluster["ring"]]
    found = []
    for factors in cluster["keyspaces"]:
        of_token = strategy_of(driver, factors).make_token_replica_map(owners, ring)
        found.append([[it.number for it in of_token[token]] for token in ring])
    return found


def main() -> None:
    """Answers the clusters of standard input."""
    driver = mended() if "--mended" in sys.argv else metadata
    for line in sys.stdin:
        print(json.dumps({"replicas": replicas_of(driver, json.loads(line))}), flush=True)


if __name__ == "__main__":
    main()
