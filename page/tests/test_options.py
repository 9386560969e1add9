"""The words of the command, its statuses, and words that look like markup."""
import hashlib
import os
import re
import subprocess
import sys
import tempfile
import unittest
from pathlib import Path

from support import HERE, Page, call, page_of, run, sample

SESSION = "two-settlements.session"
ODD = '<b>&amp; "it\'s" \u20ac</b><script>alert(1)</script>'


class Statuses(unittest.TestCase):
    """How the command ends."""

    def setUp(self) -> None:
        folder = tempfile.TemporaryDirectory()
        self.addCleanup(folder.cleanup)
        self.folder = Path(folder.name)
        self.journal = self.folder / "a.journal"
        self.journal.write_text(sample(SESSION))

    def test_wrong_words(self) -> None:
        file = str(self.journal)
        wrong: tuple[list[str], ...] = (
            [],
            [file, file],
            [file, "--what"],
            [file, "-o"],
            [file, "--check", "--checked", "yes 0"],
            [file, "--program", "x"],
            [file, "-o", file],
        )
        for words in wrong:
            status, errors = call(*words)
            self.assertEqual(status, 1, words)
            self.assertIn("usage: ", errors)
        self.assertEqual(self.journal.read_text(), sample(SESSION))

    def test_a_link_to_the_journal_is_not_overwritten(self) -> None:
        link = self.folder / "link.html"
        os.symlink(self.journal, link)
        self.assertEqual(call(str(self.journal), "-o", str(link))[0], 1)
        self.assertEqual(self.journal.read_text(), sample(SESSION))

    def test_unread(self) -> None:
        status, errors = call(str(self.folder / "absent"), "-o", str(self.folder / "p.html"))
        self.assertEqual((status, "No such file" in errors), (6, True))
        self.assertFalse((self.folder / "p.html").exists())
        self.assertEqual(call(str(self.folder))[0], 6)

    def test_unwritten(self) -> None:
        status, errors = call(str(self.journal), "-o", str(self.folder / "no" / "p.html"))
        self.assertEqual((status, "No such file" in errors), (7, True))

    def test_output_that_takes_nothing(self) -> None:
        with open("/dev/full", "wb") as full:
            words = [str(HERE.parent / "ice-page"), str(self.journal)]
            ran = subprocess.run(words, stdout=full, stderr=subprocess.PIPE, text=True, check=False)
        said = "ice-page: standard output: No space left on device\n"
        self.assertEqual((ran.returncode, ran.stderr), (7, said))

    def test_bad_journal_leaves_no_page(self) -> None:
        self.journal.write_text("no journal\n")
        page = self.folder / "p.html"
        status, errors = call(str(self.journal), "-o", str(page))
        self.assertEqual(status, 2)
        self.assertIn("line 1: `no journal` stands where `ice` is due", errors)
        self.assertFalse(page.exists())

    def test_other_kinds(self) -> None:
        for head in ("ice 1 exchange", "ice 1 prices"):
            status, _, errors = run(f"{head}\n")
            self.assertEqual((status, f"line 1: `{head}` heads no journal" in errors), (2, True))

    def test_standard_input_and_output(self) -> None:
        program = HERE.parent / "ice-page"
        ran = subprocess.run(
            [str(program), "-"], input=sample(SESSION).encode(), capture_output=True, check=False
        )
        self.assertEqual((ran.returncode, ran.stderr), (0, b""))
        page = Page(ran.stdout.decode())
        self.assertEqual(page.root.all("h1")[0].text, "standard input")
        helped = subprocess.run(
            [sys.executable, str(program), "--help"], capture_output=True, check=False
        )
        self.assertEqual(helped.returncode, 0)


class Words(unittest.TestCase):
    """Options with signs of markup are shown as they are."""

    def test_title_unit_and_answer(self) -> None:
        page = page_of(sample(SESSION), "--title", ODD, "--unit", ODD, "--checked", ODD)
        self.assertEqual(page.root.all("h1")[0].text, ODD)
        self.assertEqual(page.root.all("head")[0].all("title")[0].text, ODD)
        self.assertEqual(page.facts()["total value, at least"][0], f"1 {ODD}")
        self.assertIn(f"“{ODD}”", page.facts()["checker’s answer"][1])
        self.assertEqual(page.root.all("script"), [])

    def test_date_and_program(self) -> None:
        options = ("--date", "29 November", "--made-by", ODD)
        for more in ((), ("--bidder", "b")):
            page = page_of(sample(SESSION), *options, *more)
            self.assertEqual(page.root.all("p", "soft")[0].text, f"29 November · {ODD}")
            self.assertEqual(page.root.all("script"), [])
            self.assertEqual(run(sample(SESSION), *more), run(sample(SESSION), *more))
            self.assertNotIn("·", page_of(sample(SESSION)).root.all("section")[0].all("p")[0].text)

    def test_digest(self) -> None:
        digest = hashlib.sha256(sample(SESSION).encode()).hexdigest()
        self.assertNotIn(digest, run(sample(SESSION), "--bidder", "b")[1])
        for more in ((), ("--bidder", "b")):
            page = page_of(sample(SESSION), "--digest", f"<i>whole 1 756 {digest}", *more)
            words = page.root.all("footer")[0].text
            self.assertIn(f"published digest of the journal: <i>whole 1 756 {digest}", words)
            words = page_of(sample(SESSION), *more).root.all("footer")[0].text
            self.assertNotIn("published digest", words)

    def test_file_name(self) -> None:
        with tempfile.TemporaryDirectory() as folder:
            file, target = Path(folder, "<i>&\"'.journal"), Path(folder, "page.html")
            file.write_text(sample(SESSION))
            self.assertEqual(call(str(file), "-o", str(target))[0], 0)
            page = Page(target.read_text(encoding="utf-8"))
            self.assertEqual(page.root.all("h1")[0].text, file.name)
            self.assertIn(file.name, page.root.all("footer")[0].text)

    def test_file_name_that_is_no_text(self) -> None:
        with tempfile.TemporaryDirectory() as folder:
            file, target = os.fsencode(folder) + b"/\xe9.journal", Path(folder, "page.html")
            Path(os.fsdecode(file)).write_text(sample(SESSION))
            self.assertEqual(call(os.fsdecode(file), "-o", str(target))[0], 0)
            page = Page(target.read_text(encoding="utf-8"))
            self.assertEqual(page.root.all("h1")[0].text, "\\udce9.journal")

    def test_names_of_a_journal(self) -> None:
        for name in ("<b>", "a&b", '"', "'", "ä"):
            for old in ("good A", "bidder s 1", "payment s 1"):
                journal = sample(SESSION).replace(
                    old, old[:-1] + name if old == "good A" else old.replace(" s ", f" {name} ")
                )
                status, _, errors = run(journal)
                self.assertEqual(status, 2, name)
                self.assertRegex(errors, "line [0-9]+: ")

    def test_bidder_of_no_name(self) -> None:
        status, _, errors = run(sample(SESSION), "--bidder", "<b>")
        self.assertEqual((status, "no bidder is named <b>" in errors), (2, True))

    def test_names_of_dots_and_signs(self) -> None:
        journal = re.sub(r"\bb\b", "-._9", sample(SESSION))
        page = page_of(journal)
        self.assertIn("-._9", [row[0] for row in page.table("Who trades what")])


if __name__ == "__main__":
    unittest.main()
