"""The page for browsers answers as the second opinion does, in a headless Chromium."""
import base64
import hashlib
import json
import re
import tempfile
import unittest
from pathlib import Path
from unittest import mock

import mutants
import support
import test_derived
from support import HERE, JOURNALS, ROOT, rows
from tab import CHROMIUM, Tab

from ice_recheck.journals import check, gap

PAGE = HERE.parent / "ice-recheck.html"
HALL = (ROOT / "examples" / "hall-session.journal").read_bytes()
SEASON = (ROOT / "examples" / "season-session.journal").read_bytes()
BYTES = "Uint8Array.from(atob(%s), (letter) => letter.charCodeAt(0))"
ANSWERS = f"""
%s.map((file) => {{
  const content = {BYTES % "file"};
  const [{{ line, status }}, gap] = [check(content), check(content, readSpent)];
  return [line, status, gap.line, gap.status, sha256(content)];
}})
"""
DROP = """
((...files) => {
  const data = new DataTransfer();
  files.forEach((file) => data.items.add(file));
  document.dispatchEvent(new DragEvent("drop", { dataTransfer: data, cancelable: true }));
})(%s)
"""
# Workers that judge nothing until a test says what they answer.
STILL = """
window.made = [];
window.Worker = class {
  constructor() { made.push(this); }
  postMessage(file) { this.file = file; }
  terminate() { this.isEnded = true; }
};
"""
# How far each table scrolls, and how far from its edge its first column stands then, with the head.
SCROLLED = """
[...document.querySelectorAll(".wide")].map((frame) => {
  frame.scrollLeft = 120;
  const place = (cell) => cell.getBoundingClientRect().left - frame.getBoundingClientRect().left;
  const firsts = [...frame.querySelectorAll("tr > :first-child")].map(place);
  return [frame.scrollLeft, Math.min(...firsts), Math.max(...firsts)].map(Math.round);
})
"""
# Two million bids behind the prices: minutes of work, and a file of 58 MB.
LONG = """
new File([%s, "submit nobody 0 0\\nverdict 45\\n".repeat(2000000)], "long.journal")
"""


def file(content: bytes, name: str) -> str:
    """A file, as a script makes it."""
    encoded = json.dumps(base64.b64encode(content).decode())
    return f"new File([{BYTES % encoded}], {json.dumps(name)})"


@unittest.skipUnless(CHROMIUM, "no Chromium is here")
class Browser(unittest.TestCase):
    """The page in a browser."""

    tab: Tab

    @classmethod
    def setUpClass(cls) -> None:
        cls.tab = Tab()
        cls.addClassCleanup(cls.tab.close)

    def setUp(self) -> None:
        self.tab.show(PAGE)

    def drop(self, *files: str) -> None:
        """Drops files on the page."""
        self.tab.run(DROP % ", ".join(files))

    def shown(self, *files: str) -> str:
        """The words of the answer to files that are dropped."""
        self.drop(*files)
        self.tab.wait("document.getElementById('line') !== null")
        return str(self.tab.run("document.getElementById('answer').innerText"))

    def agree(self, journals: list[bytes]) -> None:
        """Whether each answer and each digest is that of Python."""
        files = json.dumps([base64.b64encode(journal).decode() for journal in journals])
        answers = self.tab.run(ANSWERS % files)
        self.assertEqual(len(answers), len(journals))
        for journal, answer in zip(journals, answers):
            digest = hashlib.sha256(journal).hexdigest()
            self.assertEqual(answer, [*check(journal), *gap(journal), digest], journal[:2000])

    def test_samples_and_rows(self) -> None:
        self.agree([file.read_bytes() for file in JOURNALS])
        self.agree(rows())

    def test_mutants(self) -> None:
        self.agree([mutants.mutant(seed) for seed in range(mutants.COUNT)])

    def test_version_3(self) -> None:
        self.agree([b"".join(lines) for lines in mutants.later()])
        self.agree([mutants.mutant(seed, mutants.later) for seed in range(mutants.COUNT)])

    def test_rows_of_version_3(self) -> None:
        journals = []

        def kept(journal: str) -> tuple[str, int]:
            journals.append(journal.encode())
            return support.answer(journal)

        with mock.patch.object(test_derived, "answer", kept):
            unittest.defaultTestLoader.loadTestsFromModule(test_derived).run(unittest.TestResult())
        self.assertGreater(len(journals), 500)
        self.agree(journals)

    def test_sizes_of_digests(self) -> None:
        self.agree([bytes(range(count % 256)) * 2 for count in range(55, 75)])

    def test_grammar(self) -> None:
        lines = ["settle 20", "settle 21", "settle 01", "settle +1", "settle -0", "settle 1_0"]
        lines += ["settle 1.0", "settle 1n", "settle 0x1", "settle \xb2", "near 0 0 0", "near 33"]
        lines += ["near 1 0 1", "near 2 1 0 1 0", "near 2 1 0 0 0", "submit b 0 0", "submit b 0"]
        lines += [f"derive {2**40}", f"derive {2**40 + 1}", "amounts 0 1 0 0", "amounts 39 1 199 -1"]
        lines += ["amounts", "amounts 0 0", "amounts 0 1 0 1048577", "amounts 0 2 1 1 1 1"]
        lines += [f"tolled 1 2031 {2**62}", f"tolled 1 0 {2**62 + 1}", "tolled 1 2032 0", "tolled"]
        lines += ["tolled 300" + "".join(f" {index} 1" for index in range(count)) for count in (299, 300)]
        lines += ["tolled 0", "tolled 0 0 1", "tolled 301" + "".join(f" {index} 1" for index in range(301))]
        lines += ["submit b 1 2 0", "submit b 1 2 1 3", "submit b 2 1 2 1", "leaf", "leaf 0"]
        lines += ["threshold 1/2 2/4", "threshold 0/1 -0/1", "threshold 1/1001 0/1", "prices 1"]
        lines += ["toString", "constructor x", "__proto__", "verdict 47", "node choose", "node"]
        lines += [f"spent 0 {-(2**127)}", f"spent 0 {2**127}", f"accuracy {2**100 + 1} 1", "a\tb"]
        self.agree([f"ice 1 session\n{line}\n".encode("latin-1") for line in lines])

    def test_a_file_that_is_dropped(self) -> None:
        shown = self.shown(file(HALL, "<b>&.journal"))
        self.assertIn("yes 0 0/1\n", shown)
        self.assertIn("<b>&.journal, 1696 bytes", shown)
        self.assertIn(hashlib.sha256(HALL).hexdigest(), shown)
        self.assertIn("Nothing of it is proved", self.tab.run("document.body.innerText"))
        self.assertIn("The regret is 0, and the surplus 0/1.", shown)
        self.assertIn("choir\t115/2\t60\t5\t5/2\t1\t1\t0\n", shown)

    def test_a_damaged_file_that_is_dropped(self) -> None:
        damaged = HALL.replace(b"payment choir 5 5/2 115/2", b"payment choir 5 5/2 119/2")
        line = 1 + damaged.split(b"payment choir")[0].count(b"\n")
        self.assertIn(f"no {line} payment\n", self.shown(file(damaged, "damaged")))
        self.assertEqual(self.tab.run("document.querySelectorAll('table').length"), 0)

    def test_the_first_column_stays_with_its_head(self) -> None:
        phone = "Emulation.setDeviceMetricsOverride"
        self.tab.ask(phone, width=390, height=800, deviceScaleFactor=1, mobile=True)
        self.addCleanup(self.tab.ask, "Emulation.clearDeviceMetricsOverride")
        self.shown(file(SEASON, "season"))
        self.assertEqual(self.tab.run(SCROLLED), [[120, 0, 0]] * 2)

    def test_the_last_file_has_the_answer(self) -> None:
        self.tab.run(STILL)
        self.drop(file(HALL, "large"))
        self.drop(file(HALL[:-1], "small"))
        self.assertEqual(self.tab.run("made.map((one) => one.isEnded === true)"), [True, False])
        for number, line in ((1, "the small one"), (0, "the large one")):
            answer = json.dumps({"line": line, "status": 2, "told": {}, "digest": ""})
            data = f"{{ data: {{ answer: {answer} }} }}"
            self.tab.run(f"made[{number}].onmessage({data})")
            self.tab.run(f"made[{number}].onmessage({{ data: {{ lines: 7 }} }})")
            shown = self.tab.run("document.body.innerText")
            self.assertIn("the small one", shown)
            self.assertNotIn("the large one", shown)
            self.assertNotIn("7 lines", shown)

    def test_several_files(self) -> None:
        shown = self.shown(file(HALL, "one"), file(HALL, "two"))
        self.assertIn("one alone was judged; 1 more file was left out", shown)
        shown = self.shown(file(HALL, "one"), file(HALL, "two"), file(HALL, "three"))
        self.assertIn("yes 0 0/1\n", shown)
        self.tab.wait("document.body.innerText.includes('2 more files were left out')")
        self.drop(file(HALL, "one"))
        self.tab.wait("!document.body.innerText.includes('left out')")

    def test_the_same_file_again(self) -> None:
        with tempfile.TemporaryDirectory() as folder:
            journal = Path(folder, "a.journal")
            for content, answer in ((HALL, "yes 0 0/1"), (b"x", "refused 1 51 1")):
                journal.write_bytes(content)
                self.tab.choose("file", journal)
                self.tab.wait(f"document.body.innerText.includes('{answer}\\n')")
                self.assertEqual(self.tab.run("document.getElementById('file').value"), "")

    def test_a_long_file_is_judged_beside_the_page(self) -> None:
        front = json.dumps(HALL[: HALL.index(b"submit")].decode())
        self.drop(LONG % front)
        self.tab.wait("/[1-9][0-9]* lines read/.test(document.body.innerText)")
        self.assertEqual(self.tab.run("document.getElementById('line')"), None)
        self.tab.run("document.getElementById('stop').click()")
        shown = self.tab.run("document.body.innerText")
        self.assertIn("No answer\n", shown)
        self.assertIn("long.journal: stopped before its end", shown)
        self.assertEqual(self.tab.run("document.getElementById('progress').childNodes.length"), 0)
        self.assertIn("yes 0 0/1\n", self.shown(file(HALL, "short")))

    def test_names_that_turn_what_is_beside(self) -> None:
        shown = self.shown(file(HALL, "a\u202ex\u2067\u200f\u0007.journal"))
        self.assertIn("a\\u{202e}x\\u{2067}\\u{200f}\\u{7}.journal, 1696 bytes", shown)
        self.assertNotRegex(shown, "[\u202e\u2067\u200f\u0007]")
        self.shown(file(HALL, "\u05d0.\u05d1"))
        self.tab.wait("document.querySelector('bdi').textContent === '\u05d0.\u05d1'")

    @unittest.skipUnless((ROOT / "tests" / "files").is_dir(), "the tables aren't here")
    def test_a_gap_that_is_dropped(self) -> None:
        files = ROOT / "tests" / "files"
        for name, shows in (
            ("spent-final", ("worth 0, and nothing is worth more than 10, so 10 is missed", "Nothing of")),
            ("spent-rival", ("so 10 is missed at most", "stands proved, and its regret is missing.")),
            ("spent-provisional", ("so 100 is missed", "and its regret stand proved.")),
            ("spent-without", ("so 5 is missed", "payments are not known.")),
        ):
            journal = (files / f"{name}.session").read_bytes()
            shown = self.shown(file(journal, name))
            for text in shows:
                self.assertIn(text, shown)
        forged = journal.replace(b"spent 0 5", b"spent 0 4")
        shown = self.shown(file(forged, "forged"))
        self.assertIn("no 22 closed\n", shown)
        self.assertIn("fails its tests: no 25 above.", shown)
        self.assertNotIn("is missed at most", shown)

    def test_nothing_is_asked_of_a_network(self) -> None:
        source = PAGE.read_text()
        policy = "default-src 'none'; script-src 'unsafe-inline'; worker-src blob:;"
        self.assertIn(policy, source)
        self.assertEqual(re.findall(r"https?:|src=|href=|fetch\(|import", source), [])


if __name__ == "__main__":
    unittest.main()
