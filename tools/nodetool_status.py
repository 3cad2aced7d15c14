"""Reads what `nodetool status` and `nodetool describecluster` print, of Cassandra 4 and 5."""
from __future__ import annotations

import re
from dataclasses import dataclass, field
from typing import Dict, List

from tools.endpoints import endpoint
from tools.errors import Refused
from tools.text import fault

STATES = {"N": "Normal", "L": "Leaving", "J": "Joining", "M": "Moving"}
STATUS_ROW = re.compile(
    r"(?P<up>[UD?])(?P<state>[NLJM?])\s+(?P<address>\S+)\s+(?:\?|[0-9.,]+ \S+)\s+(?:[0-9]+\s+)?(?:\?|[0-9.,]+ ?%)\s+"
    r"(?P<host_id>[0-9a-fA-F-]{36})\s+(?:-?[0-9]+\s+(?=\S))?(?P<rack>\S.*?)\s*"
)
PASSED_OVER = re.compile(r"(=+|Status=.*|\|/ State=.*|--\s.*|Note:.*|\* Warning:.*|)")
MURMUR3 = "org.apache.cassandra.dht.Murmur3Partitioner"


@dataclass(frozen=True)
class StatusNode:
    """A node of `nodetool status`."""

    address: str
    dc: str
    rack: str
    is_down: bool
    state: str
    line: int


@dataclass
class ClusterInfo:
    """What `nodetool describecluster` says of a cluster; lists of nodes are by version."""

    name: str = ""
    partitioner: str = ""
    schema_versions: Dict[str, List[str]] = field(default_factory=dict)
    database_versions: Dict[str, List[str]] = field(default_factory=dict)
    keyspaces: Dict[str, str] = field(default_factory=dict)  # the replication class of each


def read_status(lines: List[str], path: str) -> List[StatusNode]:
    """Returns the nodes of `nodetool status`."""
    nodes: List[StatusNode] = []
    dc = ""
    for number, line in enumerate(lines, 1):
        said, row = line.strip(), STATUS_ROW.fullmatch(line.strip())
        if said.startswith("Datacenter:"):
            dc = said.partition(":")[2].strip()
        elif row and dc:
            state = STATES.get(row["state"], row["state"])
            nodes.append(StatusNode(endpoint(row["address"]), dc, row["rack"], row["up"] == "D", state, number))
        elif not PASSED_OVER.fullmatch(said):
            raise fault(path, number, f"no line of nodetool status: `{said.split()[0][:40]} ..`")
    if not nodes:
        raise Refused(f"{path}: no node of nodetool status is there")
    return nodes


def read_describecluster(lines: List[str], path: str) -> ClusterInfo:
    """Returns what `nodetool describecluster` says; lines of other parts are passed over."""
    info, part = ClusterInfo(), ""
    for line in lines:
        said = line.strip()
        word, _, value = said.partition(":")
        versions = re.fullmatch(r"(\S+): \[(.*)\]", said)
        keyspace = re.fullmatch(r"(\S+) -> Replication class: (\S+).*", said)
        if said.endswith(":") and not versions:
            part = word
        elif versions and part in ("Schema versions", "Database versions"):
            nodes = [endpoint(it.strip()) for it in versions[2].split(",") if it.strip()]
            found = info.schema_versions if part == "Schema versions" else info.database_versions
            found[versions[1]] = nodes
        elif keyspace and part == "Keyspaces":
            info.keyspaces[keyspace[1]] = keyspace[2].rpartition(".")[2]
        elif word in ("Name", "Partitioner") and part == "Cluster Information":
            setattr(info, word.lower(), value.strip())
    if not info.name or not info.partitioner:
        raise Refused(f"{path}: this is to have Name and Partitioner, as nodetool describecluster prints them")
    if info.partitioner != MURMUR3:
        raise Refused(f"{path}: the partitioner is {info.partitioner}, and only Murmur3Partitioner has a place here")
    return info
