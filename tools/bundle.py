"""A bundle: a folder with what `nodetool` and `cqlsh` printed of one cluster, as the commands of bin/collect make it."""
from __future__ import annotations

import os
import re
from dataclasses import dataclass, field
from typing import Dict, List, Optional, Sequence, Tuple

from tools.endpoints import endpoint
from tools.errors import Refused
from tools.names import address_of
from tools.near import meant
from tools.nodetool import RingNode
from tools.nodetool_status import ClusterInfo, StatusNode, read_describecluster, read_status
from tools.schema import Keyspace
from tools.seen import Seen
from tools.terms import NAME, listed, plural
from tools.text import fault, read_lines

RING, SCHEMA, STATUS, CLUSTER, HOSTS = "ring.txt", "schema.cql", "status.txt", "describecluster.txt", "hosts.txt"
DESCRIBERING = re.compile(r"describering-(.+)\.txt")
OF_SYSTEM = ("system_auth", "system_distributed", "system_traces")  # the keyspaces of the system that have replicas
LOCAL = ("LocalStrategy", "MetaStrategy")


@dataclass
class Bundle:
    """The files of a folder."""

    folder: str = ""
    files: Tuple[str, str] = ("", "")  # ring and schema, where they are in no folder
    describering: Dict[str, str] = field(default_factory=dict)  # by keyspace
    info: Optional[ClusterInfo] = None
    status: List[StatusNode] = field(default_factory=list)
    hosts: Dict[str, str] = field(default_factory=dict)  # the address of each name of a machine

    def path(self, name: str) -> str:
        """Returns the path of a file of the folder."""
        return os.path.join(self.folder, name)

    def paths(self) -> Tuple[str, str]:
        """Returns the paths of ring and schema."""
        return (self.path(RING), self.path(SCHEMA)) if self.folder else self.files

    def has(self, name: str) -> bool:
        """Returns whether the folder has a file."""
        return os.path.isfile(self.path(name))


def read_bundle(folder: str) -> Bundle:
    """Returns the bundle in a folder, of which ring.txt and schema.cql have to be there."""
    bundle = Bundle(folder)
    for name in (RING, SCHEMA):
        if not bundle.has(name):
            raise Refused(f"{folder} has no {name}: bin/collect prints the commands that make such a folder")
    if bundle.has(STATUS):
        bundle.status = read_status(read_lines(bundle.path(STATUS)), bundle.path(STATUS))
    if bundle.has(CLUSTER):
        bundle.info = read_describecluster(read_lines(bundle.path(CLUSTER)), bundle.path(CLUSTER))
    if bundle.has(HOSTS):
        bundle.hosts = read_hosts(read_lines(bundle.path(HOSTS)), bundle.path(HOSTS))
    for name in sorted(os.listdir(folder)):
        found = DESCRIBERING.fullmatch(name)
        if found and os.path.getsize(bundle.path(name)):
            bundle.describering[found[1]] = bundle.path(name)
    return bundle


def read_hosts(lines: Sequence[str], path: str) -> Dict[str, str]:
    """Returns the address of each name in lines as those of /etc/hosts: an address and its names."""
    hosts: Dict[str, str] = {}
    for number, line in enumerate(lines, 1):
        address, *names = line.split("#")[0].split() or [""]
        for name in names:
            if hosts.setdefault(name, endpoint(address)) != endpoint(address):
                raise fault(path, number, f"{name} has the address {hosts[name]} already")
    return hosts


def cluster_name(bundle: Bundle) -> str:
    """Returns the name of the cluster for its log, as describecluster has it; it has to be a name of scripts."""
    if bundle.info is None:
        raise Refused(f"{bundle.folder} has no {CLUSTER}, so the log needs the name of its cluster: --cluster NAME")
    if not NAME.fullmatch(bundle.info.name):
        fit = re.sub(r"[^A-Za-z0-9_.-]+", "-", bundle.info.name)[:32].strip("-") or "NAME"
        raise Refused(
            f"{bundle.path(CLUSTER)}: the name {bundle.info.name} doesn't fit a log: choose one by --cluster, for "
            f"example --cluster {fit}"
        )
    return bundle.info.name


# ---- What the files say together


def seen_of_bundle(bundle: Bundle, nodes: List[RingNode], keyspaces: Sequence[Keyspace]) -> Seen:
    """Gives nodes that the ring has by the names of their machines their addresses, and returns what is to be kept."""
    seen = Seen(missing=missing_of(keyspaces, bundle.info))
    for node in nodes:
        node.address = bundle.hosts.get(node.address, node.address)
    addresses = {it.address for it in nodes}
    seen.hosts = {name: address for name, address in bundle.hosts.items() if address in addresses}
    down = {bundle.hosts.get(it.address, it.address) for it in bundle.status if it.is_down}
    seen.down = [it.address for it in nodes if it.status == "Down" or it.address in down]
    return seen


def notes_of(bundle: Bundle, nodes: Sequence[RingNode], keyspaces: Sequence[Keyspace]) -> List[str]:
    """Returns what the reader should know of the files together."""
    notes = [*status_notes(bundle, nodes), *cluster_notes(bundle, keyspaces)]
    if bundle.describering and not all(address_of(it.address) for it in nodes):
        notes.append(f"{bundle.path(RING)} has names of machines, and describering has addresses: {HOSTS} has lines such "
                     "as those of /etc/hosts, an address and its names")
    return notes


def status_notes(bundle: Bundle, nodes: Sequence[RingNode]) -> List[str]:
    """Returns where `status` and `ring` differ."""
    if not bundle.status:
        return []
    path, notes = bundle.path(STATUS), []
    ring = {it.address: it for it in nodes}
    for it in bundle.status:
        address = bundle.hosts.get(it.address, it.address)
        node = ring.pop(address, None)
        if node is None:
            notes.append(f"{path}:{it.line}: {address} isn't in {RING}{meant(address, ring)}: it has no token yet")
        elif (node.dc, node.rack) != (it.dc, it.rack):
            notes.append(f"{path}:{it.line}: {address} is in {it.dc} {it.rack}, and in {node.dc} {node.rack} in {RING}")
        elif node.state != it.state and "?" not in (node.state, it.state):
            notes.append(f"{path}:{it.line}: {address} is {it.state}, and {node.state} in {RING}: take both again")
    return notes + [f"{path}: {it} of {RING} isn't there" for it in ring]


def cluster_notes(bundle: Bundle, keyspaces: Sequence[Keyspace]) -> List[str]:
    """Returns what `describecluster` says that a plan shouldn't begin with."""
    info, path, notes = bundle.info, bundle.path(CLUSTER), []
    if info is None:
        return []
    agreed = {it: nodes for it, nodes in info.schema_versions.items() if it != "UNREACHABLE"}
    if len(agreed) > 1:
        parts = "; ".join(listed(nodes) for nodes in agreed.values())
        notes.append(f"{path}: nodes have {len(agreed)} versions of the schema ({parts}): wait until they agree")
    if "UNREACHABLE" in info.schema_versions:
        notes.append(f"{path}: unreachable are {listed(info.schema_versions['UNREACHABLE'])}")
    if len(info.database_versions) > 1:
        notes.append(f"{path}: nodes run {listed(sorted(info.database_versions))}: end the upgrade before nodes move")
    there = {it.name for it in keyspaces}
    lost = [it for it, strategy in info.keyspaces.items() if strategy not in LOCAL and it not in there]
    if lost:
        notes.append(f"{bundle.path(SCHEMA)}: {plural(len(lost), 'keyspace')} of {CLUSTER} isn't there: {listed(lost)}")
    return notes


def missing_of(keyspaces: Sequence[Keyspace], info: Optional[ClusterInfo]) -> List[str]:
    """Returns the keyspaces with replicas that a schema lacks: those of the system, and those of describecluster."""
    there = {it.name for it in keyspaces}
    told = [it for it, strategy in info.keyspaces.items() if strategy not in LOCAL] if info else []
    return sorted({*OF_SYSTEM, *told} - there)
