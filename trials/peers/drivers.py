"""Real drivers as children: gocql, built with a file more in its package, and the DataStax driver for Python."""
from __future__ import annotations

import atexit
import json
import os
import shutil
import subprocess
import tempfile
from dataclasses import dataclass
from functools import lru_cache
from typing import Dict, List, Optional, Sequence, Tuple

from trials.peers.cluster import Cluster

HERE = os.path.dirname(os.path.realpath(__file__))
GOPATH = "/usr/share/gocode"
GOCQL = f"{GOPATH}/src/github.com/gocql/gocql"
PYTHON = "/usr/bin/python3"  # the system's, for which Debian has the driver

AT_TOKEN = "h := tokens[p].host\n"
SKIPS_TWICE = AT_TOKEN + "if peerHas(replicas, h) || peerHas(skipped[h.DataCenter()], h) {\ncontinue\n}\n"
COUNTS_ALL = "for _, dc := range n.dcs {\n\t\tif dc > 0 {"
COUNTS_THOSE_WITH_NODES = "for name, dc := range n.dcs {\n\t\tif dc > 0 && len(dcRacks[name]) > 0 {"


@dataclass(frozen=True)
class Answer:
    """A driver's answer to a keyspace: the replicas of each token in the ring's order, or why its walk panicked."""

    replicas: Tuple[Tuple[int, ...], ...]
    fault: str = ""


class Driver:
    """A child that answers clusters."""

    def __init__(self, command: Sequence[str]) -> None:
        self.child = subprocess.Popen(list(command), stdin=subprocess.PIPE, stdout=subprocess.PIPE)
        atexit.register(self.close)

    def close(self) -> None:
        """Ends the child."""
        if self.child.poll() is None:
            self.child.kill()
        self.child.wait()

    def ask(self, cluster: Cluster) -> List[Answer]:
        """Returns the answer for each keyspace of a cluster."""
        assert self.child.stdin and self.child.stdout
        self.child.stdin.write(json.dumps(cluster.as_json()).encode() + b"\n")
        self.child.stdin.flush()
        line = self.child.stdout.readline()
        if not line:
            raise RuntimeError("the driver ended")
        said = json.loads(line)
        faults = said.get("faults") or [""] * len(cluster.keyspaces)
        return [
            Answer(tuple(tuple(nodes) for nodes in replicas or ()), fault)
            for replicas, fault in zip(said["replicas"], faults)
        ]


def missing() -> str:
    """Returns why no driver can be tried here, "" if one can."""
    return "" if has_gocql() or has_datastax() else "neither gocql with go nor the driver for Python is installed"


@lru_cache(maxsize=None)
def has_datastax() -> bool:
    """Returns whether the driver for Python is there."""
    if not os.path.exists(PYTHON):
        return False
    found = subprocess.run([PYTHON, "-c", "import cassandra.metadata"], stderr=subprocess.DEVNULL, check=False)
    return found.returncode == 0


@lru_cache(maxsize=None)
def has_gocql() -> bool:
    """Returns whether go and gocql's sources are there."""
    return shutil.which("go") is not None and os.path.isdir(GOCQL)


@lru_cache(maxsize=None)
def datastax(mended: bool) -> Optional[Driver]:
    """Returns the DataStax driver for Python, if it is there."""
    if not has_datastax():
        return None
    return Driver([PYTHON, os.path.join(HERE, "datastax.py"), *(["--mended"] if mended else [])])


@lru_cache(maxsize=None)
def gocql(mended: bool) -> Optional[Driver]:
    """Returns gocql, if it is there."""
    return Driver([build_gocql(mended)]) if has_gocql() else None


def build_gocql(mended: bool) -> str:
    """Builds gocql with a file more in its package, and returns the path of the program."""
    folder = tempfile.mkdtemp(prefix="trials-gocql-")
    atexit.register(shutil.rmtree, folder, ignore_errors=True)
    replaced = {f"{GOCQL}/peer.go": os.path.join(HERE, "gocql", "peer.go")}
    if mended:
        topology = os.path.join(folder, "topology.go")
        with open(topology, "w", encoding="utf-8") as it:
            it.write(mended_topology())
        replaced[f"{GOCQL}/topology.go"] = topology
        replaced[f"{GOCQL}/mended.go"] = os.path.join(HERE, "gocql", "mended.go")
    overlay = os.path.join(folder, "overlay.json")
    with open(overlay, "w", encoding="utf-8") as it:
        json.dump({"Replace": replaced}, it)
    program = os.path.join(folder, "peer")
    command = ["go", "build", "-overlay", overlay, "-o", program, os.path.join(HERE, "gocql", "main.go")]
    subprocess.run(command, env=go_environment(folder), check=True, cwd=folder)
    return program


def mended_topology() -> str:
    """Returns the source of gocql's walks with its two faults mended."""
    with open(f"{GOCQL}/topology.go", encoding="utf-8") as it:
        source = it.read()
    for fault, mended in ((AT_TOKEN, SKIPS_TWICE), (COUNTS_ALL, COUNTS_THOSE_WITH_NODES)):
        if source.count(fault) != 1:
            raise RuntimeError("gocql's walk is another one than that which is mended here")
        source = source.replace(fault, mended)
    return source


def go_environment(folder: str) -> Dict[str, str]:
    """Returns an environment in which go builds from Debian's sources alone."""
    cache = os.path.join(tempfile.gettempdir(), f"trials-go-cache-{os.getuid()}")
    return {**os.environ, "GOPATH": GOPATH, "GO111MODULE": "off", "GOFLAGS": "", "GOCACHE": cache, "HOME": folder}
