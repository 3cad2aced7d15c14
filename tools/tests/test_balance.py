"""Tests of tokens that are chosen: fair shares, arcs of the ring, and what the program places then."""
from __future__ import annotations

import json
import random
import unittest
from typing import Dict, List, Tuple

from tools.answers import Pair, Placement, read_placement
from tools.balance import Choice, Gap, Group, balanced, groups_of, overlap, parts_of, parts_outside
from tools.log import state
from tools.placements import read_shares
from tools.program import Session
from tools.terms import GREATEST, LEAST, WHOLE
from tools.tests.cluster import YES, InTutorial, cluster, needs_program


class FairShares(unittest.TestCase):
    """What a node would have if all nodes of its rack were alike."""

    def part(self, factor: int, racks: str, node: int) -> float:
        """Returns the fair share of a node; each letter is the rack of a node."""
        return round(Group(factor, dict(enumerate(racks, 1))).fair_share(node) / WHOLE, 3)

    def test_as_many_racks_as_replicas(self) -> None:
        self.assertEqual([self.part(3, "aabbbc", it) for it in (1, 3, 6)], [0.5, 0.333, 1.0])

    def test_more_racks_than_replicas(self) -> None:
        self.assertEqual(self.part(2, "abcd", 1), 0.5)
        self.assertEqual([self.part(2, "aaaaab", it) for it in (1, 6)], [0.2, 1.0])

    def test_fewer_racks_than_replicas(self) -> None:
        self.assertEqual([self.part(3, "aaaab", it) for it in (1, 5)], [0.5, 1.0])
        self.assertEqual(self.part(3, "aaaa", 1), 0.75)

    def test_fewer_nodes_than_replicas(self) -> None:
        self.assertEqual([self.part(3, "ab", it) for it in (1, 2)], [1.0, 1.0])


class Arcs(unittest.TestCase):
    """Arcs of the ring, round its end too."""

    def test_overlaps_and_rests(self) -> None:
        draw = random.Random(4)
        for _ in range(500):
            first = (draw.randrange(WHOLE), draw.randrange(1, WHOLE // 2))
            second = (draw.randrange(WHOLE), draw.randrange(1, WHOLE // 2))
            rest = parts_outside([first], *second)
            self.assertEqual(sum(it[1] for it in rest) + overlap(*second, first), first[1])
            self.assertEqual(sum(overlap(*second, it) for it in rest), 0)

    def test_a_token_gains_what_no_other_has(self) -> None:
        group = Group(1, {1: "a", 2: "a"})
        choice = Choice({1: 2.0, 2: 0.0})
        choice.take(Gap(0, 100, 50, {1: 1.0}), 10, group)
        self.assertEqual((choice.tokens, choice.gained), ([10], 60))
        choice.take(Gap(20, 100, 50, {1: 1.0}), 10, group)
        self.assertEqual(choice.gained, 80)


def grown(nodes: int, racks: int, tokens: int, factor: int) -> Tuple[List[float], Tuple[float, float]]:
    """Grows a cluster by joins with chosen tokens, and returns each new node's part of its fair share, and the spread."""
    ring: List[Pair] = []
    rack_of: Dict[int, str] = {}
    parts = []
    with Session() as session:
        lines = [f"keyspace ks topology dc:{factor}"]
        for node in range(1, nodes + 1):
            rack_of[node] = f"r{node % racks}"
            group = Group(factor, dict(rack_of))
            chosen = balanced(node, tokens, ring, group, place(session, len(lines), lines)) if ring else even(tokens)
            ring += [(it, node) for it in chosen]
            said = " ".join(str(it) for it in chosen)
            lines += [f"register n{node} dc {rack_of[node]}", f"unsafe-join {node} {said}"]
            if node > max(racks, factor):
                shares = read_shares(place(session, len(lines), lines))
                parts.append(shares.get(node, 0) / group.fair_share(node))
        found = parts_of(read_shares(place(session, len(lines), lines)), group).values()
        return parts, (min(found), max(found))


def even(count: int) -> List[int]:
    """Returns tokens that part the ring evenly."""
    return [LEAST + i * (WHOLE // count) + 1 for i in range(count)]


def place(session: Session, epoch: int, lines: List[str]) -> Placement:
    """Returns the placement once all lines were committed; what was committed before acts once."""
    for i, line in enumerate(lines, 1):
        answer = session.ask(f"commit {i} {line}")
        assert answer == [f"OK {i}"], answer
    return read_placement(session.ask(f"place @{epoch} ks"))


@needs_program
class Balanced(unittest.TestCase):
    """Chosen tokens, by the program's placements."""

    def test_a_joining_node_gets_its_fair_share(self) -> None:
        for nodes, racks, tokens, factor in ((12, 3, 16, 3), (10, 1, 16, 3), (10, 4, 16, 3), (8, 2, 16, 3), (9, 3, 4, 1)):
            parts, (least, most) = grown(nodes, racks, tokens, factor)
            self.assertTrue(all(0.9 <= it <= 1.1 for it in parts), (nodes, racks, parts))
            self.assertLess(most, 1.5, (nodes, racks))
            self.assertGreater(least, 0.5, (nodes, racks))

    def test_tokens_are_new_and_of_the_ring(self) -> None:
        nodes = {1: "a", 2: "b", 3: "c", 4: "a"}
        ring = [(LEAST, 1), (GREATEST, 2), (0, 3)]
        with Session() as session:
            lines = [f"register n{it} dc {nodes[it]}" for it in (1, 2, 3)] + ["keyspace ks topology dc:3"]
            lines += [f"unsafe-join {node} {token}" for token, node in ring]
            placement = place(session, len(lines), lines)
        found = balanced(4, 16, ring, Group(3, nodes), placement)
        self.assertEqual(len(set(found) | {it for it, _ in ring}), len(found) + 3)
        self.assertTrue(all(LEAST <= it <= GREATEST for it in found))


@needs_program
class Planned(InTutorial):
    """whatif chooses tokens."""

    def test_joins_get_their_fair_shares(self) -> None:
        self.write("wishes", "".join(f"join n{i} dc1 rack{i % 3 + 1} 8 tokens\n" for i in range(6)))
        status, out, _ = cluster("whatif", "shop.log", "wishes", "--script", "plan", "--json")
        self.assertEqual(status, 0)
        shop = next(it for it in json.loads(out)["spreads"] if it["keyspaces"] == ["shop"])
        self.assertGreater(shop["after"][0], shop["before"][0])
        self.assertLess(shop["after"][1], shop["before"][1])
        cluster("apply", "shop.log", "plan", *YES)
        now = state("shop.log")
        group = groups_of("topology dc1:3", now.nodes.nodes)["dc1"]
        shares = read_shares(now.place("shop"))
        for node in (it for it in now.nodes.nodes if it.name.startswith("n")):
            self.assertAlmostEqual(shares[node.id] / group.fair_share(node.id), 1.0, delta=0.1)

    def test_given_tokens_stay(self) -> None:
        self.write("wishes", "join a dc1 rack1 5 7\njoin b dc1 rack2 2 tokens\n")
        cluster("whatif", "shop.log", "wishes", "--script", "plan")
        self.assertIn("prepare-join a 5 7\n", self.read("plan"))
