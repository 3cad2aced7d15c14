"""Tests of the forms of lines."""
import os
import random
import re
import unittest

from tools.answers import FORMS, framed
from tools.grammar import COMMANDS, LINES, fault_of
from tools.program import TOP, run
from tools.terms import KINDS
from tools.tests.cluster import needs_program

ATOMS = [
    *(
        "commit 1 0 01 -0 +1 5 4294967295 4294967296 18446744073709551615 18446744073709551616 a dc1 f simple topology"
    ).split(),
    *(
        "9223372036854775807 9223372036854775808 -9223372036854775808 -9223372036854775809 3 16 17 dc1:3 dc1:0 dc2:01"
    ).split(),
    *("dc1: ::3 a:b:3 @1 @01 @ @a a.b_c-d").split(),
    *("x" * 32, "x" * 33, "é", "", "\t", "\r"),
    *COMMANDS,
    *LINES,
]


def words_for(part, draw):
    """Returns words for a part of a form, not all of which fit."""
    if part == "COMMAND":
        command = draw.choice(list(COMMANDS))
        return [command, *(word for it in COMMANDS[command] for word in words_for(it, draw))]
    if part == "REPLICATION":
        pairs = [f"d{draw.randrange(4)}:{draw.randrange(18)}" for _ in range(draw.randrange(1, 18))]
        return draw.choice([["simple", str(draw.randrange(18))], ["topology", *pairs]])
    if part == "TOKEN ..":
        return [str(draw.randrange(-(2**63), 2**63)) for _ in range(draw.choice([1, 2, 255, 256, 257]))]
    if part == "TOKEN":
        return [str(draw.randrange(-(2**64), 2**64))]
    if part == "MAX":
        return [str(draw.choice([0, 1, 2, 1024, 1025]))]
    if part in ("NODE", "GONE", "ID", "E", "I"):
        return [str(draw.choice([0, 1, 5, 2**32 - 1, 2**32, 2**64 - 1, 2**64]))]
    return [draw.choice(["@0", "@5", "f", "a", "dc1", "x" * 32])]


def drawn_line(draw):
    """Returns a line that nearly has a form."""
    head = draw.choice(list(LINES))
    words = [head, *(word for it in LINES[head] for word in words_for(it, draw))]
    for _ in range(draw.choice([0, 0, 1, 2])):
        at = draw.randrange(len(words) + 1)
        words[at : at + draw.choice([0, 1])] = draw.choice([[], [draw.choice(ATOMS)]])
    return draw.choice(["", "", "", " "])[: draw.randrange(2)] + " ".join(words) + draw.choice(
        ["", "", "", "", " ", "\r", "\t"]
    )


def section(title):
    """Returns the lines of a section of docs/language.md."""
    with open(os.path.join(TOP, "docs", "language.md"), encoding="utf-8") as it:
        text = it.read()
    return re.split(r"(?m)^#+ ", text.split(f"\n{title}\n", 1)[1])[0].splitlines()


def forms_in(title):
    """Returns the forms in the first cells of the tables of a section."""
    return [it[1] for it in (re.match(r"\| `([^`]+)` \|", line) for line in section(title)) if it]


def parts_of(form):
    """Returns the first word of a form, and its parts."""
    head, *parts = form.split(" ")
    if head == "keyspace":
        return head, ("NAME", "REPLICATION")
    return head, tuple(it for it in [*parts[:-2], " ".join(parts[-2:])] if it) if parts[-1:] == [".."] else tuple(parts)


class Tables(unittest.TestCase):
    """The tables of forms against the page of the language."""

    def test_lines_and_commands_are_those_of_the_page(self):
        said = [it for form in forms_in("## Lines") for it in spread(form)]
        forms = dict(map(parts_of, said))
        self.assertEqual({it: forms[it] for it in LINES}, LINES)
        self.assertEqual({it: forms[it] for it in COMMANDS}, COMMANDS)
        self.assertEqual(set(forms), {*LINES, *COMMANDS})

    def test_answers_are_those_of_the_page(self):
        blocks = [line.strip() for it in ("### `quorum` and `local`", "## Replay") for line in section(it)]
        said = [it for it in blocks if re.match("(QUORUM|LOCAL|REPLAY) ", it)]
        said += [*forms_in("### Other answers"), "REFUSED f l CAUSE", "TOO-LARGE 536870912", "NO .."]
        self.assertEqual(sorted(FORMS), sorted(said))
        self.assertTrue(all(it.startswith("NO ") for it in forms_in("## Refusals")))
        for line in section("## Statuses"):
            for it in re.findall(r"\| \d \| `([A-Z][^`]+)`", line):
                self.assertTrue(it in said or it.startswith(("NO ", "FILE-THERE ")), it)
        for answer in ("REPLY 1 since 0 entries 3", "REPLY 2 image 256 entries 0"):
            self.assertEqual(list(framed([answer, "OK 1"])), [(0, [answer]), (1, ["OK 1"])])
        fork = ["REFUSED 2 5 FORK 4", '{"command"}', '{"entry"}']
        self.assertEqual(list(framed(["AT 1", *fork])), [(0, ["AT 1"]), (1, fork)])


def spread(form):
    """Returns a form for each KIND."""
    return [form.replace("KIND", it) for it in KINDS] if "KIND" in form else [form]


class Forms(unittest.TestCase):
    """Lines and their faults."""

    def test_faults_tell_column_and_word(self):
        for line, column, why in (
            ("commit 1 register a dc1 r1\r", 27, "a carriage return"),
            ("commit 1 register a\tdc1 r1", 20, "a tab"),
            ("place @1 ks ", 12, "a space at the end"),
            ("place  @1 ks", 7, "a space too many"),
            (" place @1 ks", 1, "a space too many"),
            ("", 1, "an empty line"),
            ("register a dc1 r1", 1, "`commit ID` comes before a command"),
            ("commit 1 regster a dc1 r1", 10, "is register meant?"),
            ("commit 1 register a dc1", 25, "RACK is expected"),
            ("commit 1 register a dc1 r1 r2", 28, "the end of the line is expected"),
            ("commit 1 prepare-join 3 9223372036854775808", 25, "out of range"),
            ("commit 1 keyspace k topology a:3 a:4", 34, "a second time"),
            ("commit 1 keyspace k topology a:17", 32, "1 to 16"),
            ("commit 01 register a dc1 r1", 8, "ID (a number below 2^64"),
            ("ask f 0", 7, "MAX (a number from 1 to 1,024)"),
            ("ask f 1025", 7, "MAX"),
            ("give f -1", 8, "I (a number below 2^64"),
            ("give f", 8, "I is expected: give F I"),
            ("nodes @01", 7, "TARGET (an epoch such as @12"),
        ):
            with self.subTest(line):
                fault = fault_of(line)
                self.assertEqual(fault.column, column)
                self.assertIn(why, fault.why)

    @needs_program
    def test_lint_and_the_program_agree(self):
        draw = random.Random(7)
        lines = [it for it in (drawn_line(draw) for _ in range(4000)) if "\n" not in it]
        answers = [it for _, it in framed(run(["commit"], "".join(f"{it}\n" for it in lines).encode()).lines)]
        self.assertEqual(len(answers), len(lines))
        bad = [it for it, answer in zip(lines, answers) if answer == ["NO BAD-LINE"]]
        self.assertEqual([it for it in lines if fault_of(it)], bad)
        self.assertTrue(100 < len(bad) < len(lines) - 100)


if __name__ == "__main__":
    unittest.main()
