"""Tests of the trials beside drivers: Cassandra's walk, gocql's own tests as data, and planted faults."""
from __future__ import annotations

import collections
import os
import tempfile
import unittest
from typing import Dict, List, Set

from trials.kind import Case
from trials.kinds import drivers as kind
from trials.peers import drivers
from trials.peers.cluster import Cluster, Keyspace, Node
from trials.peers.drivers import Answer
from trials.peers.walk import replicas
from trials.rows import RELEASE

PROGRAM = os.environ.get("TCM") or RELEASE


def by_program(cluster: Cluster) -> List[List[Set[int]]]:
    """Returns what the program reads for each keyspace at each token of the ring."""
    with tempfile.TemporaryDirectory() as folder:
        said = kind.placements(Case(0, PROGRAM, folder), cluster)
    assert not isinstance(said, str), said
    return said


class Walk(unittest.TestCase):
    """Cassandra's walk, and the program, on clusters of which one can see the replicas."""

    def test_racks_come_first(self) -> None:
        nodes = tuple(Node("dc1", rack, (token,)) for rack, token in (("r1", 0), ("r1", 10), ("r2", 20), ("r1", 30)))
        cluster = Cluster(nodes, (Keyspace("k", {"dc1": 2}), Keyspace("all", {"dc1": 4})))
        want = [[1, 3], [2, 3], [3, 4], [4, 3]]
        self.assertEqual([replicas(cluster, cluster.keyspaces[0], it) for it in (0, 10, 20, 30)], want)
        self.assertEqual(by_program(cluster)[0], [set(it) for it in want])
        self.assertEqual(by_program(cluster)[1], [{1, 2, 3, 4}] * 4)

    def test_a_node_counts_once(self) -> None:
        nodes = (Node("dc1", "r1", (0, 1, 2)), Node("dc1", "r1", (5,)), Node("dc1", "r2", (9,)))
        cluster = Cluster(nodes, (Keyspace("k", {"dc1": 3}),))
        self.assertEqual(set(replicas(cluster, cluster.keyspaces[0], 0)), {1, 2, 3})


class OfGocql(unittest.TestCase):
    """What gocql's own tests of its topology want, asked of the program."""

    def test_simple_strategy(self) -> None:
        cluster = Cluster(tuple(Node("dc1", "r1", (it,)) for it in (0, 25, 50, 75)), (Keyspace("k", {"": 2}),))
        self.assertEqual(by_program(cluster)[0], [{i + 1, (i + 1) % 4 + 1} for i in range(4)])

    def test_network_topology_strategy(self) -> None:
        nodes = [(f"dc{i}", f"rack{j % 3 + 1}", j) for i in (1, 2, 3) for j in range(5)]
        nodes.sort(key=lambda it: f"{it[0]}:{it[1]}:{it[2]}")
        keyspaces: List[Dict[str, int]] = [{"dc1": 1, "dc2": 2, "dc3": 3}, {"dc2": 2, "dc3": 3}]
        cluster = Cluster(
            tuple(Node(dc, rack, (i,)) for i, (dc, rack, _) in enumerate(nodes)),
            tuple(Keyspace(f"k{i}", it) for i, it in enumerate(keyspaces)),
        )
        for factors, said in zip(keyspaces, by_program(cluster)):
            for at_token in said:
                counted = collections.Counter(cluster.nodes[it - 1].dc for it in at_token)
                self.assertEqual(dict(counted), factors)


class Faults(unittest.TestCase):
    """Planted faults are noticed, and only known ones of a driver are excused."""

    def test_a_node_too_few_is_no_agreement(self) -> None:
        self.assertFalse(kind.agrees(Answer(((1, 2),)), [{1, 2, 3}]))
        self.assertFalse(kind.agrees(Answer(((1, 2, 2),)), [{1, 2}]))
        self.assertTrue(kind.agrees(Answer(((2, 1),)), [{1, 2}]))

    def test_only_its_sign_excuses_a_driver(self) -> None:
        self.assertEqual(kind.sign_of(Answer(((1, 2),))), "")
        self.assertNotEqual(kind.sign_of(Answer(((1, 1),))), "")
        self.assertEqual(kind.sign_of(Answer((), "index out of range")), "")
        self.assertNotEqual(kind.sign_of(Answer((), kind.PANIC + ": got 1 expected 2")), "")

    def test_a_program_that_reads_one_node_less_is_noticed(self) -> None:
        cluster = Cluster(tuple(Node("dc1", f"r{it}", (it,)) for it in range(4)), (Keyspace("k", {"dc1": 3}),))
        said = by_program(cluster)
        self.assertEqual(kind.walk_difference(cluster, cluster.keyspaces[0], said[0]), "")
        said[0][2].pop()
        self.assertNotEqual(kind.walk_difference(cluster, cluster.keyspaces[0], said[0]), "")

    @unittest.skipUnless(drivers.has_datastax(), "the driver for Python isn't installed")
    def test_the_python_driver_takes_a_node_twice(self) -> None:
        nodes = (Node("dc1", "r1", (0,)), Node("dc1", "r1", (1, 2)), Node("dc1", "r1", (3,)), Node("dc1", "r2", (4,)))
        cluster = Cluster(nodes, (Keyspace("k", {"dc1": 4}),))
        whole, mended = drivers.datastax(False), drivers.datastax(True)
        assert whole and mended
        self.assertEqual(whole.ask(cluster)[0].replicas[0], (1, 4, 2, 2))
        self.assertEqual(mended.ask(cluster)[0].replicas[0], (1, 4, 2, 3))
        self.assertEqual(by_program(cluster)[0][0], {1, 2, 3, 4})
