"""What one bidder may see: pages of statements, and a bidder's page as its statement has it."""
import os
import re
import tempfile
import unittest
from pathlib import Path

from support import HERE, SAMPLES, call, page_of, run, sample

STATEMENTS = HERE / "statements"
SELLER, BUYER = ((STATEMENTS / f"two-settlements.{name}").read_text() for name in "sb")
AUDITOR = """#!/bin/sh
[ "$1" = audit ] || exit 1
cat >/dev/null
echo "yes -31/2"
"""


def names(journal: str) -> list[str]:
    """The names of the bidders."""
    return re.findall("^bidder ([^ ]+)", journal, re.M)


def statement_of(journal: str, name: str) -> str:
    """The statement of a bidder, as docs/formats.md says what it may see."""
    mine, whose, group, sets = names(journal).index(name), "", "", 0
    lines = [f"statement {name}"]
    found: dict[str, str | None] = {}
    for line in journal.splitlines():
        word, *fields = line.split()
        whose = fields[0] if word in ("bidder", "submit", "payment") else whose
        if word in ("final", "rival", "provisional", "without"):
            group, sets = word, 0
        elif word == "set":
            found[group] = fields[0] if sets == mine else found.get(group)
            sets += 1
        elif word in ("settings", "good", "exact", "settle", "threshold"):
            lines.append(line)
        elif word == "regret":
            lines += [line, f"kept {found['final']}"]
        elif word == "prices":
            lines += [f"offered {found['provisional']}", line]
        elif word in ("bidder", "node", "submit", "verdict", "payment") and whose == name:
            lines.append(line)
    return "".join(f"{line}\n" for line in [*lines, "end statement"])


def alone(statement: str) -> str:
    """A journal with the bidder of a statement alone, of which it is the statement too."""
    head, *lines = statement.splitlines()
    found = ["ice 2 session"]
    for line in lines:
        word, *fields = line.split()
        if word == "regret":
            regret = line
        elif word == "kept":
            for group in ("final 0", "rival 0"):
                found += [group, f"set {fields[0]}", "near 0"]
            found.append(regret)
        elif word == "offered":
            found += ["provisional 0", f"set {fields[0]}", "near 0"]
        elif word == "prices":
            found += [line, "accuracy 0 1", "balance 1"]
        elif word == "threshold":
            empty = "0" * sum(each.startswith("node ") for each in lines)
            found += ["without 0 0", f"set {empty}", "near 0", line]
        elif word == "end":
            found.append("end closed")
        else:
            found.append(line)
    return "".join(f"{line}\n" for line in found)


CLOSED = [
    (file.name, journal)
    for file in SAMPLES
    if (journal := file.read_text()).endswith("end closed\n")
]


class OneStatement(unittest.TestCase):
    """A bidder's page is told by its statement."""

    def test_two_journals_with_one_statement(self) -> None:
        # The buyer's seven bids, its last one alone, and the older version of journals.
        others = ("two-settlements.one-bid.session", "two-settlements.v1.session")
        one = sample("two-settlements.session")
        for name, other, same in (
            ("s", others[0], True),
            ("b", others[0], False),
            ("s", others[1], True),
            ("b", others[1], True),
        ):
            journals = (one, sample(other))
            statements = [statement_of(each, name) for each in journals]
            self.assertEqual(statements[0] == statements[1], same)
            self.assertNotEqual(*journals)
            for options in ((), ("--checked", "yes 0 0/1"), ("--round", "1")):
                pages = [run(each, "--bidder", name, *options) for each in journals]
                self.assertEqual(pages[0][0], 0)
                self.assertEqual(pages[0] == pages[1], same, (name, other, options))

    def test_a_page_is_told_by_the_statement(self) -> None:
        # The second journal is made of the statement, and of nothing else.
        self.assertGreater(len(CLOSED), 8)
        for file, journal in CLOSED:
            for name in names(journal):
                statement = statement_of(journal, name)
                other = alone(statement)
                self.assertEqual(statement_of(other, name), statement, file)
                pages = [run(each, "--bidder", name) for each in (journal, other)]
                self.assertEqual(pages[0][0], 0)
                self.assertEqual(pages[0], pages[1], (file, name))

    def test_a_page_of_the_statement_is_the_same(self) -> None:
        for file, journal in CLOSED:
            for name in names(journal):
                statement = statement_of(journal, name)
                status, of_journal, _ = run(journal, "--bidder", name)
                for options in ((), ("--bidder", name)):
                    page = run(statement, *options)[1]
                    for own, theirs in (
                        ("audit’s answer", "checker’s answer"),
                        (
                            "retells the statement; <code>ice audit</code> tests it",
                            "retells the journal; whoever has the journal can have it checked",
                        ),
                        ("<span>a statement</span>", "<span>kind session</span>"),
                    ):
                        self.assertEqual(page.count(own), 1, own)
                        page = page.replace(own, theirs)
                    self.assertEqual((status, page == of_journal), (0, True), (file, name))


class Pages(unittest.TestCase):
    """Pages of statements."""

    def test_written_by_hand(self) -> None:
        # Both files were written by hand.
        journal = sample("two-settlements.session")
        self.assertEqual(statement_of(journal, "s"), SELLER)
        self.assertEqual(statement_of(journal, "b"), BUYER)
        self.assertEqual([len(text.splitlines()) for text in (SELLER, BUYER)], [16, 30])

    def test_the_seller(self) -> None:
        page = page_of(SELLER)
        facts = page.facts()
        self.assertEqual(facts["state"], ("Closed", "after 1 round"))
        self.assertEqual(facts["you receive"][0], "15.5 (31/2)")
        worth = facts["your trade is worth, at least"]
        self.assertEqual(worth, ("−15", "at your lower values"))
        self.assertEqual(facts["could be missed, at most"], ("0", "the regret"))
        self.assertEqual(facts["surplus of the payments"], ("0", "what all pay together"))
        says = (
            "Your final set is worth −15 at lower values. You add 1 to the total (your Vickrey "
            "discount); the cut is 0.5 (1/2), so you keep 0.5 (1/2)."
        )
        words = page.root.seen()
        self.assertIn(says, words)
        self.assertIn("You get: sell A.", words)
        self.assertNotIn("Your bids", words)
        self.assertEqual(page.root.all("h1")[0].text, "some.journal · for s alone")

    def test_the_values_of_its_bids(self) -> None:
        rows = page_of(BUYER).table("Your bids")[1:]
        stated = ["0: 5..18", "0: 18..16", "lower: 16 16 upper: 18", "0: 10..20", "0: 16..20"]
        self.assertEqual([row[1] for row in rows], [*stated, "0: 16..18", "0: 16..17"])
        verdicts = [re.findall(r"accepted:|refused \((\d+)", row[2]) for row in rows]
        self.assertEqual(verdicts, [["40"], ["41"], ["46"], ["42"], ["43"], [""], ["44"]])

    def test_the_audit(self) -> None:
        for told, shown in (
            ("yes -31/2", "yes"),
            ("yes 31/2", "no"),
            ("yes 0 0/1", "no"),
            ("no 15 payment", "no"),
            ("refused 1 50 6", "no verdict"),
            ("words refused", "no verdict"),
        ):
            value, note = page_of(SELLER, "--checked", told).facts()["audit’s answer"]
            self.assertEqual(value, shown, told)
            others = "it can’t say that others were shown the same prices"
            self.assertEqual(others in note, shown == "yes")
        page = page_of(SELLER, "--checked", "yes -31/2")
        self.assertNotIn("proven", page.root.text)
        words = page_of(SELLER, "--checked", "no 15 payment").root.all("p", "lead")[0].text
        self.assertIn("The audit doesn’t accept this statement.", words)

    def test_the_audit_is_asked(self) -> None:
        with tempfile.TemporaryDirectory() as folder:
            program = Path(folder, "auditor")
            program.write_text(AUDITOR)
            program.chmod(0o755)
            for text, shown in ((SELLER, "yes"), (BUYER, "no")):
                page = page_of(text, "--check", "--program", str(program))
                self.assertEqual(page.facts()["audit’s answer"][0], shown)
            absent = run(SELLER, "--check", "--program", os.path.join(folder, "absent"))
            self.assertEqual((absent[0], absent[1]), (6, ""))
            for empty in ("", "statement"):
                status, _, errors = run(empty, "--check", "--program", str(program))
                self.assertEqual((status, "line 1: " in errors), (2, True))

    def test_other_words(self) -> None:
        self.assertEqual(run(BUYER, "--bidder", "b", "--round", "1")[0], 0)
        status, _, errors = run(BUYER, "--bidder", "s")
        self.assertEqual((status, "no bidder is named s" in errors), (2, True))
        self.assertEqual(run(BUYER, "--bidder", "b", "--round", "2")[0], 2)
        self.assertEqual(call("x", "--round", "1")[0], 1)


class Damage(unittest.TestCase):
    """What is no statement makes no page, and the line is named."""

    def refused(self, text: str) -> str:
        """What is said of a text that is refused."""
        status, page, errors = run(text)
        self.assertEqual((status, page), (2, ""), text)
        return errors

    def test_each_line_left_out_or_doubled(self) -> None:
        for text in (SELLER, BUYER):
            lines = text.splitlines(keepends=True)
            for place, line in enumerate(lines):
                without = lines[:place] + lines[place + 1 :]
                self.refused("".join(without))
                if not line.startswith(("submit", "good")):
                    self.refused("".join(lines[: place + 1] + lines[place:]))

    def test_each_cut(self) -> None:
        for size in range(len(SELLER)):
            self.refused(SELLER[:size])

    def test_names_at_odds(self) -> None:
        for old, new, line in (
            ("statement b", "statement c", 4),
            ("submit b 1 18 1 16", "submit c 1 18 1 16", 13),
            ("payment b", "payment s", 29),
        ):
            said = self.refused(BUYER.replace(old, new))
            self.assertRegex(said, f"line {line}: [bcs] stands in the statement of [bc]")

    def test_lines_of_the_other_kind(self) -> None:
        for old, new, said in (
            ("kept 0", "set 0", "line 8: `set 0` stands where `kept` is due"),
            ("kept 0", "kept 00", "line 8: 2 bits for the 1 nodes of s"),
            ("prices 1 14", "prices 1 14 2", "line 10: 2 prices of 1 goods"),
            ("settle 1", "settle 2", "line 11: `settle 1` is due here"),
            ("end statement", "end closed", "line 16: `end closed` stands where"),
            ("settle 0", "bidder b 0", "line 6: `bidder b 0` stands where `settle` is due"),
            ("regret 5", "regret 0", "line 9: `offered 0` stands where `threshold` is due"),
            ("end statement", "end statement x", "line 16: `end statement x` is no"),
        ):
            self.assertIn(said, self.refused(SELLER.replace(old, new)))
        journal = sample("two-settlements.session")
        for old, new in (("set 0\n", "kept 0\n"), ("end closed", "end statement")):
            self.refused(journal.replace(old, new, 1))
        self.assertIn("line 17", self.refused(SELLER + "good B\n"))


if __name__ == "__main__":
    unittest.main()
