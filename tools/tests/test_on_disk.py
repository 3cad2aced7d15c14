"""Tests of verbs over a log that is on a disk."""
import os
import subprocess

from tools.disk import file_on, put
from tools.on_disk import place_of
from tools.program import program
from tools.tests.cluster import InTutorial, cluster, needs_program

ON_DISK = "shop.disk:shop.log"


@needs_program
class OnDisk(InTutorial):
    """Each verb over DISK:LOG does what it does over a file."""

    def setUp(self):
        super().setUp()
        words = ("import", "ring.txt", "schema.cql", "--log", ON_DISK, "--cluster", "shop")
        self.assertEqual(cluster(*words)[0], 0)
        os.remove(f"{ON_DISK}.seen")

    def same(self, *words):
        """Runs a verb over the file and over the disk, and checks that both say the same."""
        on_disk = cluster(*(it.replace("LOG", ON_DISK) for it in words))
        plain = cluster(*(it.replace("LOG", "shop.log") for it in words))
        said = [it.replace(ON_DISK, "shop.log") for it in on_disk[1:]]
        self.assertEqual((on_disk[0], *said), plain)
        return plain[0]

    def test_verbs_say_the_same(self):
        for words in (
            ["status", "LOG"],
            ["status", "LOG", "@3", "--json"],
            ["compare", "LOG", "shop", "describering-shop.txt"],
            ["whatif", "LOG", "wishes.txt"],
            ["draw", "--log", "LOG"],
            ["moves", "LOG"],
        ):
            with self.subTest(words):
                self.assertIn(self.same(*words), (0, 1))

    def test_apply_commits_on_the_disk(self):
        self.write("new.script", "register 10.0.0.9 dc1 rack1\nprepare-join 10.0.0.9 77\nstart-join 10.0.0.9\n")
        self.assertEqual(self.same("apply", "LOG", "new.script", "--dry-run"), 0)
        self.assertEqual(self.same("apply", "LOG", "new.script", "--yes", "start"), 0)
        self.assertEqual(self.same("moves", "LOG"), 0)
        with open("shop.log", "rb") as it:
            self.assertEqual(file_on("shop.disk", "shop.log"), it.read())
        self.write("ask.script", "nodes @99\n")
        self.assertEqual(self.same("answers", "ask.script", "--on", "LOG"), 1)

    def test_slips_are_told(self):
        status, _, said = cluster("status", "shop.disk")
        told = f"cluster status: shop.disk: this is a disk: name a log on it, {ON_DISK}\n"
        self.assertEqual((status, said), (1, told))
        absent = "no such log file"
        for log, why in (("shop.disk:no", absent), ("shop.log:a", "this is no disk"), ("no:a", absent)):
            status, _, said = cluster("status", log)
            self.assertEqual((status, why in said), (1, True), said)
        status, _, said = cluster("import", "ring.txt", "schema.cql", "--log", ON_DISK, "--cluster", "shop")
        self.assertEqual((status, "is there already" in said), (1, True))

    def test_a_file_with_a_colon_in_its_name_is_a_file(self):
        os.rename("shop.log", "a:b.log")
        self.assertIsNone(place_of("a:b.log"))
        self.assertEqual(cluster("status", "a:b.log")[0], 0)
        os.mkdir("c:d")
        self.assertIsNone(place_of("c:d/new.log"))

    def test_a_reader_needs_no_lock(self):
        words = [program(), "on", "shop.disk", "commit", "shop.log", "shop"]
        with subprocess.Popen(words, stdin=subprocess.PIPE, stdout=subprocess.PIPE) as run:
            run.stdin.write(b"nodes @0\n")
            run.stdin.flush()
            run.stdout.readline()
            self.assertEqual(cluster("status", ON_DISK)[0], 0)
            run.stdin.close()
        put("shop.disk", b"b.log", b"")
        self.assertEqual(cluster("status", "shop.disk:b.log")[0], 0)


if __name__ == "__main__":
    import unittest

    unittest.main()
