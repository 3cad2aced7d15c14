"""Tests of bundles: a folder of what nodetool and cqlsh printed, and what an import keeps beside the log."""
import os
import shutil
import subprocess
import sys
import tempfile
import unittest

from tools.bundle import read_hosts
from tools.endpoints import endpoint
from tools.errors import Refused
from tools.log import state
from tools.nodetool_status import read_describecluster, read_status
from tools.program import TOP
from tools.schema import read_schema
from tools.seen import Seen, seen_of
from tools.tests.cluster import BUNDLE, InTutorial, cluster, needs_program


def lines_of(name):
    """Returns the lines of a file of the bundle."""
    with open(os.path.join(BUNDLE, name), encoding="utf-8") as it:
        return it.read().split("\n")


class Reading(unittest.TestCase):
    """What the tools print."""

    def test_ports_slashes_and_brackets_are_taken_off(self):
        for said in ("10.0.0.1", "/10.0.0.1", "10.0.0.1:7000", "/10.0.0.1:7000", "a.example/10.0.0.1:7000"):
            self.assertEqual(endpoint(said), "10.0.0.1")
        for said in ("2001:db8:0:0:0:0:0:1", "[2001:db8:0:0:0:0:0:1]:7000", "[2001:db8::1]"):
            self.assertEqual(endpoint(said), "2001:db8::1")
        self.assertEqual(endpoint("node-a.example:7000"), "node-a.example")

    def test_status_is_read_with_and_without_virtual_nodes(self):
        nodes = read_status(lines_of("status.txt"), "s")
        self.assertEqual([(it.address, it.dc, it.rack, it.is_down) for it in nodes][2:], [
            ("10.0.0.3", "dc1", "rack3", False), ("10.0.0.4", "dc1", "rack1", True)
        ])
        one = "UJ  10.0.0.9:7000  1.5 GiB  33.3%  8f866186-edf2-4489-aa9e-bf6cb77336df  -9223372036854775808  rack 1"
        node = read_status(["Datacenter: dc1", one], "s")[0]
        self.assertEqual((node.address, node.state, node.rack), ("10.0.0.9", "Joining", "rack 1"))
        with self.assertRaisesRegex(Refused, "s:2: no line of nodetool status"):
            read_status(["Datacenter: dc1", "hello"], "s")

    def test_describecluster_is_read(self):
        info = read_describecluster(lines_of("describecluster.txt"), "d")
        self.assertEqual((info.name, list(info.database_versions)), ("shop", ["4.1.3"]))
        self.assertEqual(info.schema_versions["UNREACHABLE"], ["10.0.0.4"])
        self.assertEqual(info.keyspaces["system_traces"], "SimpleStrategy")
        other = [it.replace("Murmur3", "Random") for it in lines_of("describecluster.txt")]
        with self.assertRaisesRegex(Refused, "RandomPartitioner, and only Murmur3Partitioner"):
            read_describecluster(other, "d")

    def test_hosts_map_names_to_addresses(self):
        self.assertEqual(read_hosts(["10.0.0.1 a a.example # x", ""], "h"), {"a": "10.0.0.1", "a.example": "10.0.0.1"})
        with self.assertRaisesRegex(Refused, "h:2: a has the address 10.0.0.1 already"):
            read_hosts(["10.0.0.1 a", "10.0.0.2 a"], "h")

    def test_alter_keyspace_and_left_out_options_are_told(self):
        create = "CREATE KEYSPACE a WITH replication = {'class': 'SimpleStrategy', 'replication_factor': '1'}"
        alter = "ALTER KEYSPACE a WITH replication = {'class': 'NetworkTopologyStrategy', 'dc1': '3'}"
        found = read_schema(f"{create} AND durable_writes = false AND fast_path = 'simple';\n{alter};", "s")[0]
        self.assertEqual((found.strategy, found.options), ("NetworkTopologyStrategy", {"dc1": "3"}))
        self.assertEqual(found.notes, [
            "its option durable_writes = false is left out",
            "its option fast_path = simple is left out",
            "its replication is that of ALTER KEYSPACE in line 2",
        ])
        self.assertEqual(read_schema(f"{create} AND durable_writes = true;", "s")[0].notes, [])
        with self.assertRaisesRegex(Refused, "s:1: ALTER KEYSPACE a comes before any CREATE KEYSPACE a"):
            read_schema(f"{alter};\n{create};", "s")

    def test_what_was_seen_is_kept(self):
        seen = Seen(["a"], {"b": (1, -2)}, {"c.example": "c"}, ["system_auth"])
        again = Seen()
        for number, line in enumerate(seen.lines(), 1):
            again.add(line.split("\t"), "s", number)
        self.assertEqual(again, seen)
        self.assertEqual(seen.down_with(["d"], ["a"]), ["d"])


class Collect(unittest.TestCase):
    """bin/collect."""

    def test_its_commands_make_a_bundle(self):
        with tempfile.TemporaryDirectory() as folder:
            tool = os.path.join(folder, "tool")
            with open(tool, "w", encoding="utf-8") as it:
                it.write(
                    '#!/bin/sh\ncase $1 in describering) name=describering-$2.txt ;; -e) name=schema.cql ;; '
                    f'*) name=$1.txt ;; esac\ncat {BUNDLE}/$name\n'
                )
            os.chmod(tool, 0o755)
            words = [sys.executable, os.path.join(TOP, "bin", "collect"), "my bundle", "--nodetool", tool, "--cqlsh", tool]
            said = subprocess.run(words, stdout=subprocess.PIPE, check=True).stdout
            subprocess.run(["sh"], input=said, cwd=folder, check=True)
            made = os.path.join(folder, "my bundle")
            self.assertEqual(sorted(os.listdir(made)), sorted(os.listdir(BUNDLE)))
            for name in os.listdir(made):
                with open(os.path.join(made, name), encoding="utf-8") as it:
                    self.assertEqual(it.read().split("\n"), lines_of(name))


@needs_program
class Import(InTutorial):
    """import FOLDER."""

    def bundle(self, change=None):
        """Imports the bundle after a change of one file: its name, and what is replaced by what."""
        if change:
            name, one, other = change
            text = self.read(f"bundle/{name}")
            self.assertIn(one, text)
            self.write(f"bundle/{name}", text.replace(one, other))
        return cluster("import", "bundle", "--log", "new.log")

    def test_it_takes_all_and_compares(self):
        status, out, said = self.bundle()
        self.assertEqual((status, len(state("new.log").replications)), (0, 5))
        self.assertIn("new.log: 4 nodes with 16 tokens, 5 keyspaces, 13 commands", out)
        self.assertEqual(out.count("no difference"), 5)
        self.assertIn("10.0.0.4 is Down: new.log.seen keeps it", said)
        self.assertEqual((seen_of("new.log").down, seen_of("new.log").missing), (["10.0.0.4"], []))

    def test_a_difference_has_status_1(self):
        status, out, _ = self.bundle(("describering-logs.txt", "10.0.0.2", "10.0.0.9"))
        self.assertEqual(status, 1)
        self.assertIn("10.0.0.9 only in describering", out)
        self.assertIn("16 ranges of shop at epoch 13: no difference", out)

    def test_ports_are_stripped_and_machines_mapped(self):
        ring = self.read("bundle/ring.txt")
        self.write("bundle/ring.txt", ring.replace("10.0.0.2 ", "node-b ").replace("10.0.0.3 ", "10.0.0.3:7000 "))
        self.assertEqual(cluster("import", "bundle", "--log", "no.log")[0], 1)
        self.write("bundle/hosts.txt", "10.0.0.2 node-b\n")
        self.assertEqual(self.bundle()[0], 0)
        self.write("w.txt", "leave node-b\n")
        self.assertIn("  leave 10.0.0.2\n", cluster("whatif", "new.log", "w.txt")[1])

    def test_what_files_say_together_is_told(self):
        self.assertIn("nodes run 4.1.3, 5.0.2: end the upgrade", self.bundle(
            ("describecluster.txt", ", 10.0.0.4:7000]", "]\n\t5.0.2: [10.0.0.4:7000]")
        )[2])
        os.remove("new.log")
        self.assertIn("10.0.0.3 is in dc1 rack3, and in dc1 rack2 in ring.txt", self.bundle(
            ("ring.txt", "rack3", "rack2")
        )[2])
        self.assertIn("they differ in spelling only", cluster("import", "bundle", "--log", "other.log")[1] + self.bundle(
            ("ring.txt", "rack2 ", "Rack-2")
        )[1] + cluster("import", "bundle", "--log", "third.log")[1])

    def test_a_schema_that_is_cut_is_told(self):
        shutil.copy("schema.cql", "bundle/schema.cql")
        said = self.bundle()[2]
        self.assertIn("3 keyspaces of describecluster.txt isn't there", said.replace("aren't", "isn't"))
        self.assertEqual(seen_of("new.log").missing, ["system_auth", "system_distributed", "system_traces"])

    def test_slips_of_files_are_named(self):
        shutil.copy("bundle/status.txt", "bundle/ring.txt")
        self.assertIn("bundle/ring.txt:3: nodetool status printed this", self.bundle()[2])
        os.remove("bundle/ring.txt")
        self.assertIn("bundle has no ring.txt: bin/collect prints", self.bundle()[2])

    def test_a_datacenter_that_differs_in_spelling_is_told(self):
        said = self.bundle(("schema.cql", "'dc1'", "'DC-1'"))[2]
        self.assertIn("the ring has no datacenter DC-1, only dc1; dc1 differs from it in spelling only", said)

    def test_a_refusal_says_how_many_nodes_fit(self):
        rows = [f"10.0.{n}.1 r1 Up Normal 1 KiB 1% {n * 256 + i}" for n in range(100) for i in range(256)]
        self.write("bundle/ring.txt", "\n".join(["Datacenter: dc1", "==", *rows]))
        self.assertIn("100 nodes have 25,600 tokens, and at most 16,384 have room: 64 nodes of 256 tokens", self.bundle()[2])

    def test_tokens_of_a_joining_node_needn_t_be_told_again(self):
        ring = self.read("bundle/ring.txt").replace("rack1       Down   Normal ", "rack1       Up     Joining")
        self.write("bundle/ring.txt", ring)
        os.remove("bundle/status.txt")
        words = ["import", "bundle", "--log", "new.log", "--settled", "10.0.0.4"]
        out = cluster(*words)[1]
        self.assertIn("new.log: 3 nodes with 12 tokens and 1 joining one, 5 keyspaces", out)
        self.write("w.txt", "join 10.0.0.4\n")
        self.assertEqual(cluster("whatif", "new.log", "w.txt", "--script", "plan.script")[0], 0)
        tokens = "-7405056261440462236 -1340297203042039660 500551957913137708 9158516072569077398"
        self.assertIn(f"prepare-join 10.0.0.4 {tokens}\n", self.read("plan.script"))
        self.write("w.txt", "join 10.0.0.3\n")
        self.assertIn("w.txt:1: the import saw no tokens of 10.0.0.3", cluster("whatif", "new.log", "w.txt")[2])

    def test_a_node_that_was_down_counts_until_it_is_up(self):
        self.assertEqual(self.bundle()[0], 0)
        self.write("w.txt", "leave 10.0.0.1\n")
        self.assertIn("while 10.0.0.4 is down", cluster("whatif", "new.log", "w.txt")[1])
        self.write("w.txt", "up 10.0.0.4\nleave 10.0.0.1\n")
        self.assertNotIn("down", cluster("whatif", "new.log", "w.txt")[1])
