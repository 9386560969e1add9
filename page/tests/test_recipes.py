"""The lines in documents that make a page for each bidder, run in a shell, also with names that begin with a hyphen."""
import re
import shutil
import subprocess
import tempfile
import unittest
from pathlib import Path

from support import ROOT, Page, sample

SESSION = "two-settlements.session"
NAMES = {"b": "-b", "s": "--check"}
# It writes the statement of a name, and passes one that it is asked of.
PROGRAM = """#!/bin/sh
case $1 in
statement) exec page/ice-statement "$2" -- "$3" ;;
audit) awk '$1 == "payment" { print "yes " $NF }' "$2" ;;
*) exit 1 ;;
esac
"""


def shell_lines(document: str) -> list[str]:
    """The lines of a document that stand in blocks of shell with no output."""
    blocks = re.findall(r"(?ms)^```sh\n(.*?)^```$", (ROOT / document).read_text())
    return [line for block in blocks for line in block.splitlines()]


class Recipes(unittest.TestCase):
    """Recipes of docs/operating.md."""

    def setUp(self) -> None:
        folder = tempfile.TemporaryDirectory()
        self.addCleanup(folder.cleanup)
        self.folder = Path(folder.name)
        shutil.copytree(ROOT / "page" / "ice_page", self.folder / "page" / "ice_page")
        for name in ("ice-page", "ice-statement"):
            shutil.copy(ROOT / "page" / name, self.folder / "page")
        (self.folder / "ice").write_text(PROGRAM)
        (self.folder / "ice").chmod(0o755)
        journal = re.sub("(?m)^(bidder|submit|payment) ([bs])", lambda it: f"{it[1]} {NAMES[it[2]]}", sample(SESSION))
        (self.folder / "market.journal").write_text(journal)

    def ran(self, *begins: str) -> None:
        """Runs the lines of the document that begin so, N being 1, and tests that they say nothing."""
        lines = [line for line in shell_lines("docs/operating.md") if line.startswith(begins)]
        script = "\n".join(["set -e", "N=1", *lines])
        ran = subprocess.run(["bash", "-c", script], cwd=self.folder, capture_output=True, text=True)
        self.assertEqual((ran.returncode, ran.stdout, ran.stderr), (0, "", ""), script)

    def shows(self, name: str, bidder: str) -> None:
        """Tests that a page is that of a bidder."""
        page = Page((self.folder / name).read_text(encoding="utf-8"))
        self.assertIn(f"for {bidder} alone", page.root.text)

    def test_a_page_for_each_bidder(self) -> None:
        self.ran("names=", "for name in $names; do page/ice-page market.journal")
        for name in NAMES.values():
            self.shows(f"{name}-1.html", name)

    def test_a_statement_for_each_bidder_and_its_page(self) -> None:
        self.ran("names=", "for name in $names; do ./ice statement", 'for name in $names; do page/ice-page "./$name.statement')
        for name in NAMES.values():
            self.assertTrue((self.folder / f"{name}.statement").read_text().startswith(f"statement {name}\n"), name)
            self.shows(f"{name}.html", name)


if __name__ == "__main__":
    unittest.main()
