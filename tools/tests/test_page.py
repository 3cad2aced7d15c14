"""Tests of pages: in a headless browser, what stands in a page is compared with what the program answers."""
import glob
import json
import os
import re
import subprocess
import tempfile
import unittest

from tools.answers import read_nodes, read_placement, read_quorum
from tools.log import copy_of, last_epoch, state, words_on
from tools.margins import levels_of
from tools.names import path_of
from tools.page import embedded, page_of
from tools.page_data import visible
from tools.program import TOP, Session, program
from tools.streams import streams_of
from tools.terms import GREATEST, row_name
from tools.tests.browser import Browser, needs_chromium
from tools.tests.cluster import YES, InTutorial, cluster, needs_program
from tools.text import write_text

# Goes through all epochs and keyspaces by the page's own controls, and returns what stands in its tables.
READ = """(() => {
  const at = (id) => document.getElementById(id);
  const say = (it) => it.dispatchEvent(new Event("input", { bubbles: true }));
  const rows = (kind) => [...at(`${kind}-table`).querySelectorAll("tbody tr")];
  const cells = (kind) => rows(kind).map((row) => [...row.children].map(told));
  const told = (it) => [...(it.querySelector("div") ? it.children : [it])].map((part) => part.textContent).join("; ");
  const next = (kind) => [...at(`${kind}-pager`).querySelectorAll("button")].find((it) => it.textContent === "Next");
  const all = (kind) => {
    const read = cells(kind);
    for (let it = next(kind); it && !it.disabled; it = next(kind)) {
      it.click();
      read.push(...cells(kind));
    }
    return read;
  };
  const slider = at("epoch"), select = at("filters").elements.keyspace, found = [];
  for (let place = 0; place <= Number(slider.max); place++) {
    slider.value = place;
    say(slider);
    const now = { title: at("title").textContent, nodes: all("nodes"), places: [] };
    const current = [...document.querySelectorAll(".flight:not(.coming)")];
    now.flights = current.map((it) => ["h3", "[aria-current]"].map((part) => it.querySelector(part).textContent));
    for (const { value, textContent } of [...select.options]) {
      select.value = value;
      say(select);
      const step = document.querySelector(`.step[data-place="${place}"]`).lastChild.textContent;
      now.places.push({ said: textContent, step, rows: all("rows") });
    }
    found.push(now);
  }
  return found;
})()"""


def page(log, *more):
    """Returns the path of the page of a log."""
    status, made, said = cluster("page", log, *more)
    assert status == 0, said
    path = f"{log}.html"
    write_text(path, made)
    return path


class Texts(unittest.TestCase):
    """How the page is put together."""

    def test_no_text_ends_the_element_of_the_data(self):
        said = {"name": "</script><script>alert(1)</script>&\u2028"}
        self.assertNotRegex(embedded(said), "[<>&\u2028]")
        self.assertEqual(json.loads(embedded(said)), said)

    def test_names_show_what_turns_or_hides_them(self):
        self.assertEqual(visible('a "b" <c> \x1b[31m\u202e'), 'a "b" <c> \\u{1b}[31m\\u{202e}')

    def test_nothing_is_loaded(self):
        made = page_of({})
        self.assertIn("default-src 'none'", made)
        self.assertNotRegex(made, r"https?://(?!www\.w3\.org/2000/svg)|\bsrc=|@import")


class Compared(unittest.TestCase):
    """Compares tables of a page with what the program answers."""

    def check(self, browser, log, path):
        """Checks each epoch of a page."""
        shown = browser.open(path)
        read = shown.run(READ)
        self.assertEqual(shown.faults(), [])
        with copy_of(log) as copy, Session(words_on(copy)) as session:
            for now in read:
                epoch = int(re.search(r"epoch (\d+) of", now["title"])[1])
                self.check_nodes(now, session.ask(f"nodes @{epoch}"))
                for place in now["places"]:
                    self.check_place(place, epoch, session)
        self.assertEqual(len(read), last_epoch(log) + 1)

    def check_nodes(self, now, answer):
        """Checks the rows of nodes, and the movements."""
        nodes = read_nodes(answer)
        self.names = {it.id: it.name for it in nodes.nodes}
        wanted = []
        for it in nodes.nodes:
            tokens = ", ".join(map(str, it.tokens)) or "-"
            count = f"{len(it.tokens)} tokens" if len(it.tokens) > 1 else ""
            wanted.append([str(it.id), it.name, it.dc, it.rack, it.state, count + tokens])
        self.assertEqual([it[:6] for it in now["nodes"]], wanted)
        flights = [(self.names[it.node], it.phase) for it in nodes.movements]
        self.assertEqual([(it[0].split(" ")[0], it[1].split(" ")[0]) for it in now["flights"]], flights)

    def check_place(self, place, epoch, session):
        """Checks the rows of each keyspace that stands for a page's choice, with their needs."""
        said = re.fullmatch(r"(.*) \((.*)\)", place["said"])
        for keyspace in said[1].split(", "):
            rows = read_placement(session.ask(f"place @{epoch} {keyspace}")).rows
            levels = [words.format(epoch=epoch) for _, words in levels_of(keyspace, said[2])]
            tokens = [GREATEST if it.right is None else it.right for it in rows]
            answers = session.ask_all([f"{level} {token}" for token in tokens for level in levels])
            needs = [read_quorum(it[0]) for it in answers]
            wanted = [
                [row_name(row.left, row.right), self.named(row.reads), self.named(row.pending)]
                + [need_said(it) for it in needs[i * len(levels) : (i + 1) * len(levels)]]
                for i, row in enumerate(rows)
            ]
            self.assertEqual([it[: 3 + len(levels)] for it in place["rows"]], wanted, (epoch, keyspace))
            quorums = needs[:: len(levels)]
            reads = min(len(it.reads) - it.read_need for it in quorums)
            writes = min(len(it.writes) - it.write_need for it in quorums)
            self.assertEqual(place["step"], f"{reads} / {writes}")

    def named(self, ids):
        """Returns nodes as a page names them."""
        return ", ".join(self.names[it] for it in ids) or "none"


def need_said(quorum):
    """Returns the needs of a quorum as a page says them."""
    pairs = (("read", quorum.read_need, quorum.reads), ("write", quorum.write_need, quorum.writes))
    return "; ".join(f"{word} {need} of {len(nodes)}{spare_said(len(nodes) - need)}" for word, need, nodes in pairs)


def spare_said(spare):
    """Returns what a quorum can lose as a page says it."""
    return " (no quorum)" if spare < 0 else f" (can lose {spare})"


@needs_program
@needs_chromium
class Examples(Compared):
    """Pages of the examples."""

    def setUp(self):
        self.folder = tempfile.mkdtemp(prefix="cluster-test-")
        self.addCleanup(subprocess.run, ["rm", "-rf", self.folder], check=False)

    def test_pages_of_examples_say_what_the_program_answers(self):
        scripts = sorted(glob.glob(os.path.join(TOP, "examples", "*.script")))
        self.assertGreater(len(scripts), 8)
        with Browser() as browser:
            for script in scripts:
                name = os.path.basename(script)[:-7]
                log = os.path.join(self.folder, f"{name}.log")
                words = [program(), "commit", log, "example"]
                with open(script, "rb") as it:
                    subprocess.run(words, stdin=it, stdout=subprocess.DEVNULL, check=False)
                with self.subTest(name):
                    self.check(browser, log, page(log))


@needs_program
@needs_chromium
class Plans(InTutorial, Compared):
    """The page of the tutorial's plan."""

    def setUp(self):
        super().setUp()
        self.assertEqual(cluster("whatif", "shop.log", "wishes.txt", "--script", "plan.script")[0], 0)

    def test_a_plan_is_shown_and_the_log_stays(self):
        before = self.read("shop.log")
        with Browser() as browser:
            shown = browser.open(page("shop.log", "--plan", "plan.script"))
            self.assertEqual(shown.run("document.querySelectorAll('#step-list .step').length"), 21)
            said = shown.run("document.querySelector('.next').previousSibling.textContent")
            self.assertEqual(said, "register 10.0.0.5 dc1 rack1")
            shown.run("document.querySelector('.phases button:nth-of-type(1)').click()")
            self.assertIn("epoch 13", shown.run("document.title"))
            self.assertEqual(shown.faults(), [])
        self.assertEqual(self.read("shop.log"), before)

    def test_each_epoch_of_a_plan_is_what_the_program_answers_later(self):
        with Browser() as browser:
            path = page("shop.log", "--plan", "plan.script")
            self.assertEqual(cluster("apply", "shop.log", "plan.script", *YES)[0], 0)
            self.check(browser, "shop.log", path)

    def test_streams_are_those_of_the_program(self):
        self.assertEqual(cluster("apply", "shop.log", "plan.script", "--yes", "start")[0], 4)
        rows = "[...document.querySelectorAll('.flight tbody tr')]"
        table = f"{rows}.map((row) => [...row.children].map((it) => it.textContent))"
        now = state("shop.log")
        name = {it.id: it.name for it in now.nodes.nodes}
        with Browser() as browser:
            shown = browser.open(page("shop.log"))
            for keyspace in ("logs", "shop"):
                shown.run(f"choose({{ keyspace: '{keyspace}' }})")
                wanted = [
                    [it.name, name[taking.to], ", ".join(name[n] for n in taking.sources)]
                    for it, taking in streams_of("shop.log", now.movements[0].node, now, [keyspace], set())[0].stretches
                ]
                self.assertEqual([[it[0], *it[2:]] for it in shown.run(table)], wanted)

    def test_the_address_keeps_what_is_shown(self):
        path = page("shop.log", "--plan", "plan.script")
        with Browser() as browser:
            shown = browser.open(path)
            shown.run("goTo(14), choose({ keyspace: 'shop', rack: 'rack1', token: '5' })")
            said = shown.run("location.hash")
            self.assertEqual(said, "#epoch=14&keyspace=shop&rack=rack1&token=5")
            again = browser.open(f"{path}{said}")
            self.assertIn("epoch 14", again.run("document.title"))
            row = "document.querySelectorAll('#rows-table tbody tr')"
            self.assertEqual(again.run(f"{row}.length"), 1)
            self.assertEqual(again.run(f"{row}[0].firstChild.textContent"), "(-975215793926684103,115839821719001648]")

    def test_names_are_text_whatever_they_have(self):
        there = '<img src=x onerror=alert(1)>"&amp;'
        write_text(path_of("shop.log"), f"node\t10.0.0.1\t{there}\nkeyspace\tshop\t</script><b>\n")
        with Browser() as browser:
            shown = browser.open(page("shop.log"))
            self.assertIn(visible(there), shown.run("document.getElementById('nodes-table').textContent"))
            self.assertEqual(shown.run("document.querySelectorAll('img, b:not(.flight b)').length"), 0)
            self.assertEqual(shown.faults(), [])

    def test_an_empty_log_has_a_page(self):
        self.write("empty.log", '{"cluster":"empty","format":2}\n')
        with Browser() as browser:
            shown = browser.open(page("empty.log"))
            self.assertIn("epoch 0 of 0", shown.run("document.title"))
            self.assertEqual(shown.faults(), [])

    def test_a_page_of_the_last_epochs_says_the_same(self):
        with Browser() as browser:
            shown = browser.open(page("shop.log", "--since", "@8"))
            self.assertEqual(shown.run("data.epochs.length"), 3)
            self.assertEqual(shown.run("shown.rows.length"), len(self.ask("place @10 logs\n")) - 1)

    def test_keys_go_through_the_epochs(self):
        with Browser() as browser:
            shown = browser.open(page("shop.log"))
            for key, epoch in (("Home", 0), ("ArrowRight", 1), ("End", 10), ("ArrowLeft", 9)):
                for kind in ("keyDown", "keyUp"):
                    shown.call("Input.dispatchKeyEvent", type=kind, key=key, code=key)
                self.assertIn(f"epoch {epoch} of 10", shown.run("document.title"))

    def test_a_plan_that_is_refused_is_told(self):
        self.write("refused.script", "register 10.0.0.1 dc1 rack1\n")
        status, _, said = cluster("page", "shop.log", "--plan", "refused.script")
        self.assertEqual(status, 3)
        self.assertIn("refused.script:1: register 10.0.0.1 dc1 rack1: NO NAME-TAKEN 1", said)

    def test_a_plan_that_is_half_done_goes_on(self):
        self.assertEqual(cluster("apply", "shop.log", "plan.script", "--yes", "start")[0], 4)
        self.assertEqual(cluster("page", "shop.log", "--plan", "plan.script")[0], 0)


if __name__ == "__main__":
    unittest.main()
