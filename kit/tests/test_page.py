"""The kit in a browser: what it shows and says, by keys alone, on a phone, in each language."""
from __future__ import annotations

import hashlib
import json
import re
import subprocess
import sys
import tempfile
import unittest
from pathlib import Path

from support import PROGRAM, ROOT, needs_program, so_far, statements
from window import NEEDS, Window

from ice_page import statement_digests
from ice_page.digest import Bound

HALL = (ROOT / "examples/hall-session.journal").read_bytes()
SEASON = (ROOT / "examples/season-session.journal").read_bytes()
# What lies outside the window and in no frame that scrolls.
OUTSIDE = """
[...document.body.querySelectorAll("*")].filter((part) => {
  const box = part.getBoundingClientRect();
  const style = getComputedStyle(part);
  const shown = box.width > 0 && box.height > 0 && style.clipPath === "none";
  return shown && !part.closest(".wide") && box.right > document.documentElement.clientWidth + 0.5;
}).map((part) => part.outerHTML.slice(0, 80))
"""
# The colours of words and of what is behind them.
COLOURS = """
(() => {
  const behind = (part) => {
    for (let at = part; at; at = at.parentElement) {
      const found = getComputedStyle(at).backgroundColor;
      if (!/rgba\\(.*, 0\\)/.test(found)) return found;
    }
    return "rgb(255, 255, 255)";
  };
  const words = [...document.body.querySelectorAll("*")].filter((part) =>
    part.offsetParent && [...part.childNodes].some((one) => one.nodeType === 3 && one.data.trim()));
  const seen = words.map((part) => JSON.stringify([getComputedStyle(part).color, behind(part)]));
  return [...new Set(seen)].map(JSON.parse);
})()
"""
# Fields, buttons and links without a name, and identities that stand twice.
NAMELESS = """
[...document.querySelectorAll("a, button, input, select, textarea")].filter((field) => {
  const label = field.getAttribute("aria-label") ?? field.closest("label")?.innerText ?? field.textContent;
  return !field.hidden && label.trim() === "";
}).map((field) => field.outerHTML)
"""
TWICE = """
[...document.querySelectorAll("[id]")].map((part) => part.id).filter((id, place, all) => all.indexOf(id) < place)
"""
LEVELS = "[...document.querySelectorAll('h1, h2, h3')].map((head) => Number(head.tagName[1]))"
# The cells of a table, row by row.
ROWS = """
[...document.querySelectorAll("%s tr")].map((row) =>
  [...row.children].map((cell) => cell.innerText.replace(/\\s+/g, " ").trim()))
"""
FOCUSED = "document.activeElement.name || document.activeElement.id || document.activeElement.textContent"
SAVED = """
(() => {
  const own = URL.createObjectURL;
  URL.createObjectURL = (blob) => { blob.text().then((text) => { window.saved = text; }); return own(blob); };
  HTMLAnchorElement.prototype.click = function () { window.savedAs = this.download; };
})()
"""


def brightness(colour: str) -> float:
    """The relative luminance of a colour, by the WCAG."""
    parts = [int(part) / 255 for part in re.findall(r"\d+", colour)[:3]]
    linear: list[float] = [part / 12.92 if part <= 0.03928 else ((part + 0.055) / 1.055) ** 2.4 for part in parts]
    return 0.2126 * linear[0] + 0.7152 * linear[1] + 0.0722 * linear[2]


def contrast(one: str, other: str) -> float:
    """The contrast of two colours."""
    dark, light = sorted(map(brightness, (one, other)))
    return (light + 0.05) / (dark + 0.05)


@NEEDS
class InABrowser(unittest.TestCase):
    """Each test opens the kit anew."""

    window: Window

    @classmethod
    def setUpClass(cls) -> None:
        cls.window = Window()
        cls.addClassCleanup(cls.window.close)

    def setUp(self) -> None:
        made = tempfile.TemporaryDirectory()
        self.addCleanup(made.cleanup)
        self.folder = Path(made.name)
        self.window.open()

    def file(self, content: bytes, name: str = "my.statement") -> Path:
        """A file with this content."""
        path = self.folder / name
        path.write_bytes(content)
        return path

    def audit(self, content: bytes, name: str = "my.statement") -> str:
        """Chooses a file as the statement; the line that is said of it."""
        self.window.run("document.getElementById('said').className = ''")
        self.window.choose("file", self.file(content, name))
        self.window.wait("/ (good|bad)$/.test(document.getElementById('said').className)")
        return str(self.window.words("#said"))

    def tried(self) -> str:
        """The line that is said of the bid that is tried."""
        self.window.wait("/ (good|bad)$/.test(document.getElementById('verdict')?.className)")
        return str(self.window.words("#verdict"))

    def becomes(self, place: str, text: str) -> None:
        """Waits until an element has this text."""
        self.window.wait(f"document.querySelector({json.dumps(place)}).textContent === {json.dumps(text)}")

    def test_a_session_that_closed(self) -> None:
        self.assertEqual(self.audit(statements(HALL)["choir"]), "Yes: every test passed")
        shown = self.window.words("#answer")
        for text in (
            "ice audit would say: yes 115/2",
            "Your verdicts, your sets and your payment follow from the lines that are shown.",
            "your set and your Vickrey discount are those of the journal",
            "you pay\n57.5 (115/2)",
            "Vickrey discount\n5\n",
            "cut\n2.5 (5/2)",
            "Your set is worth 60 at lower values. You add 5 to the total; the cut is 2.5 (5/2), so you keep 2.5 (5/2).",
            "monday\t≈28.333 (85/3)",
            hashlib.sha256(statements(HALL)["choir"]).hexdigest(),
        ):
            self.assertIn(text, shown)
        self.assertEqual(self.tried(), "This bid would be refused")
        self.assertIn("This round is over", self.window.words("#trying"))
        self.assertEqual(self.window.words("#send"), "")
        self.audit(statements(HALL)["hall"])
        self.assertIn("you receive\n57.5 (115/2)", self.window.words("#answer"))
        self.assertEqual(self.window.complaints(), [])

    def test_a_session_that_waits(self) -> None:
        self.assertEqual(self.audit(statements(so_far(HALL, 0))["choir"]), "Right so far")
        shown = self.window.words("#answer")
        self.assertIn("The session waits for bids of round 1.", shown)
        self.assertIn("would say of the last line: no 17 order", shown)
        self.assertNotIn("you pay", shown)
        self.assertEqual(self.window.words("#round option"), "1, which is awaited")

    def test_bids_of_a_session(self) -> None:
        self.audit(statements(SEASON)["Northern-Airways"])
        shown = self.window.words("#answer")
        self.assertIn("refused (42): it doesn’t tell which set you want at the prices (first rule): By the middles", shown)
        self.assertIn("accepted: these are your intervals from here on", shown)
        self.assertIn("refused (44): a bid of yours was accepted in this round already", shown)
        # Each round may be tried again: the third one, and the first.
        self.assertEqual(self.window.run("document.getElementById('round').value"), "2")
        self.window.run("(field => { field.value = '0'; field.dispatchEvent(new Event('change')); })(document.getElementById('round'))")
        self.tried()
        self.assertIn("so far 520..760", self.window.words("#trying"))
        self.assertEqual(self.window.run("document.activeElement.id"), "round")

    def test_what_fails(self) -> None:
        choir = statements(HALL)["choir"]
        damaged = choir.replace(b"payment choir 5 5/2 115/2", b"payment choir 5 5/2 119/2")
        line = damaged.splitlines().index(b"payment choir 5 5/2 119/2") + 1
        self.assertEqual(self.audit(damaged), f"No: line {line}")
        shown = self.window.words("#answer")
        self.assertIn("The discount or the payment isn’t the one due. Don’t rely on this file", shown)
        self.assertNotIn("you pay", shown)
        self.assertIn("Choose the statement of a session", self.window.words("#trying"))
        for content, says in (
            (choir[:-1], "the last one, has no newline"),
            (b"what\n", "Line 1 is no line of a statement."),
            (HALL, "Another line stands here"),
        ):
            self.audit(content)
            self.assertIn(says, self.window.words("#answer"))
        self.assertEqual(self.window.complaints(), [])

    def test_a_bid(self) -> None:
        self.audit(statements(so_far(HALL, 0))["choir"])
        self.assertEqual(self.tried(), "This bid would be refused")
        self.assertIn("You need not bid", self.window.words("#tried"))
        self.window.type("[name=low-1]", "62")
        self.window.wait("document.getElementById('tried').innerText.includes('raise lower ends of node 1')")
        shown = self.window.words("#tried")
        self.assertIn("but “buy wednesday” (nodes 0, 4) could leave up to ≈13.833 (83/6) more", shown)
        self.assertIn("raise lower ends of node 1, or lower upper ends of node 4, by ≈13.833 (83/6) in all", shown)
        self.assertNotIn("You need not bid", shown)
        self.assertIn("There is no file to send", self.window.words("#send"))
        self.window.type("[name=low-1]", "76")
        self.becomes("#verdict", "This bid would count")
        self.assertEqual(
            self.window.run(ROWS % "#sets")[:2],
            [
                ["set", "costs", "leaves at least", "leaves at most"],
                ["buy monday + tuesday provisional, best for sure · nodes 0–3", "≈61.667 (185/3)", "≈14.333 (43/3)", "≈18.333 (55/3)"],
            ],
        )
        # As docs/bidding.md has it.
        line = '{"bidder": "choir", "lo": [0, 76, 0, 0, 20], "hi": [0, 80, 0, 0, 30]}'
        self.assertIn(line, (ROOT / "docs/bidding.md").read_text())
        self.assertEqual(self.window.run("document.getElementById('line').value"), line)
        for text, says in (("75.5", "a whole number"), ("", "a whole number"), ("1000000001", "a whole number"), ("81", "would be refused")):
            self.window.type("[name=low-1]", text)
            self.window.wait(f"document.getElementById('verdict').textContent.includes('{says}')")
        self.assertIn("refused (41)", self.window.words("#tried"))
        self.window.type("[name=low-1]", "\u221259")
        self.window.wait("document.getElementById('tried').innerText.includes('refused (40)')")
        self.assertIn("\u221259..80 at node 1, where 60..80 stood", self.window.words("#tried"))
        self.window.run("[...document.querySelectorAll('#trying button')].find(({ innerText }) => innerText.startsWith('Back')).click()")
        self.window.wait("document.getElementById('tried').innerText.includes('You need not bid')")
        self.assertEqual(self.window.complaints(), [])

    def test_signs(self) -> None:
        waiting = so_far(HALL, 0).replace(b"node sell 0 1 -10 -10", b"node sell 0 1 -10 500", 1)
        self.audit(statements(waiting)["hall"])
        self.tried()
        self.assertIn("Node 1 sells at a value above 0: you would pay up to 500 to be rid of it.", self.window.words("#tried"))
        self.assertEqual(self.window.run("document.querySelector('[name=low-1]').inputMode"), "text")

    def saved_bid(self) -> bytes:
        """The file of the choir's bid, as it is saved."""
        self.audit(statements(so_far(HALL, 0))["choir"])
        self.tried()
        self.window.type("[name=low-1]", "76")
        self.becomes("#verdict", "This bid would count")
        self.window.run(SAVED)
        self.window.run("document.querySelector('#send button').click()")
        self.window.wait("window.saved && window.savedAs")
        self.assertEqual(self.window.run("savedAs"), "choir.json")
        return str(self.window.run("saved")).encode()

    def test_the_file_to_send(self) -> None:
        bid = self.file(self.saved_bid(), "1405-choir.json")
        market = str(ROOT / "examples/hall.json")
        command = [sys.executable, str(ROOT / "examples/collect.py"), market, "--named", str(bid)]
        ran = subprocess.run(command, capture_output=True, text=True, check=False)
        due = {"bids": [{"bidder": "choir", "lo": [0, 76, 0, 0, 20], "hi": [0, 80, 0, 0, 30]}]}
        said = "collect: 1 bid taken, 0 put aside\n"
        self.assertEqual((ran.returncode, json.loads(ran.stdout), ran.stderr), (0, due, said))

    @needs_program
    def test_the_file_that_was_sent(self) -> None:
        bid = json.loads(self.saved_bid())
        sent = self.file(json.dumps({"bids": [bid]}).encode(), "round.json")
        command = [str(PROGRAM), "run", str(ROOT / "examples/hall.json"), str(sent)]
        ran = subprocess.run(command, stdout=subprocess.PIPE, check=False)
        self.assertIn(b"submit choir 5 0 76 0 0 20 5 0 80 0 0 30\nverdict accepted\n", ran.stdout)

    def test_by_keys_alone(self) -> None:
        self.audit(statements(so_far(HALL, 0))["choir"])
        self.tried()
        self.window.run("document.getElementById('round').focus()")
        stops = []
        for _ in range(9):
            self.window.press("Tab")
            stops.append(self.window.run(FOCUSED))
        fields = [f"{side}{slider}-{node}" for node in (1, 4) for side in ("low", "high") for slider in ("", "-slider")]
        self.assertEqual(stops, [*fields, "Back to the intervals so far"])
        self.window.run("document.querySelector('[name=low-slider-1]').focus()")
        for _ in range(16):
            self.window.press("ArrowRight")
        self.becomes("#verdict", "This bid would count")
        self.assertEqual(self.window.run("document.querySelector('[name=low-1]').value"), "76")
        # The verdict is told where it changes, and the focus stays where it was.
        self.assertEqual(self.window.run("document.getElementById('verdict').getAttribute('role')"), "status")
        self.assertEqual(self.window.run(FOCUSED), "low-slider-1")
        self.window.run("document.querySelector('[name=low-1]').focus()")
        self.window.run("document.querySelector('[name=low-1]').select()")
        for digit in "62":
            self.window.press(digit, digit)
        self.becomes("#verdict", "This bid would be refused")
        # A language is chosen by Enter, and all stays as it was.
        self.window.run("document.querySelector('[data-language=de]').focus()")
        self.window.press("Enter", "\r")
        self.becomes("#verdict", "Dieses Gebot würde abgelehnt")
        self.assertEqual(self.window.run("document.querySelector('[name=low-1]').value"), "62")
        self.assertEqual(self.window.run("document.documentElement.lang"), "de")
        self.assertIn("≈13,833 (83/6)", self.window.words("#tried"))

    def compare(self, file: Path | None, listed: str, salt: str) -> str:
        """Compares a file with a list; the line that is said of it."""
        if file is not None:
            self.window.choose("comparefile", file)
        self.window.type("#list", listed)
        self.window.type("#salt", salt)
        self.window.run("document.getElementById('compare-go').click()")
        self.window.wait("/ (good|bad)$/.test(document.getElementById('found').className)")
        return str(self.window.words("#found"))

    def test_digests(self) -> None:
        journal, salts = self.file(HALL, "a.journal"), self.folder / "salts"
        lines, _ = statement_digests.all_statements(str(journal), str(salts))
        listed = "\n".join(lines)
        salt = next(line for line in salts.read_text().splitlines() if line.startswith("salt choir "))
        self.assertEqual(self.compare(None, listed, salt), "Choose a file first.")
        choir = statements(HALL)["choir"]
        self.audit(choir)
        self.assertEqual(self.compare(None, listed, salt), "Your statement is in the list")
        self.assertIn("It doesn’t show that they checked the journal", self.window.words("#compared"))
        smaller = choir.replace(b"payment choir 5 5/2 115/2", b"payment choir 3 1/2 119/2")
        self.assertEqual(self.audit(smaller), "Yes: every test passed")
        self.assertEqual(self.compare(None, listed, salt), "Your statement is not in the list")
        self.assertEqual(self.compare(None, f"{listed}\nx", salt), "The list has a line that is no digest, or no line at all.")
        self.assertEqual(self.compare(None, listed, ""), "A salt is wanted: 64 hexadecimal digits, or the line “salt NAME DIGITS”.")
        whole = Bound(HALL, b"")
        entry = str(whole.digest(*whole.published, False))
        self.assertEqual(self.compare(journal, entry, ""), "The journal has all that was published")
        self.assertIn("up to the prices of settlement 0\tnothing was published", self.window.words("#compared"))
        other = self.file(HALL.replace(b"payment choir", b"payment chair"), "b.journal")
        self.assertEqual(self.compare(other, entry, ""), "The journal has other bytes than were published")
        self.assertEqual(self.window.complaints(), [])

    def test_files_of_a_salt_and_a_list(self) -> None:
        self.window.choose("saltfile", self.file(bytes(range(32)), "salt"))
        self.window.wait(f"document.getElementById('salt').value === '{bytes(range(32)).hex()}'")
        self.window.choose("listfile", self.file(b"front 0 10 x\n", "list"))
        self.window.wait("document.getElementById('list').value === 'front 0 10 x\\n'")
        self.window.choose("saltfile", self.file(bytes(5000), "salt"))
        self.window.wait("document.getElementById('found').textContent.includes('is too long to be that')")

    def test_files_that_are_dropped(self) -> None:
        texts = [statements(HALL)["choir"].decode(), "what\n"]
        self.window.run(
            "(data => {"
            f"{json.dumps(texts)}.forEach((text, n) => data.items.add(new File([text], 'a\u202eb' + n)));"
            "document.dispatchEvent(new DragEvent('drop', { dataTransfer: data, cancelable: true }));"
            "})(new DataTransfer())"
        )
        self.becomes("#said", "Yes: every test passed")
        shown = self.window.words("#answer")
        self.assertIn("a\\u{202e}b0\u2069 was taken, and the others were left out", shown)
        self.assertNotIn("\u202e", shown)

    def test_a_long_file_may_be_stopped(self) -> None:
        front = json.dumps(statements(so_far(HALL, 0))["choir"].decode().removesuffix("end open\n"))
        bid = json.dumps("submit choir 5 0 60 0 0 20 5 0 80 0 0 30\nverdict 42\n")
        self.window.run(f"takeFiles([new File([{front}, {bid}.repeat(100000)], 'long')])")
        self.assertEqual(self.window.run("document.getElementById('stop').hidden"), False)
        self.window.run("document.getElementById('stop').click()")
        self.becomes("#said", "Stopped. Nothing is known of this file.")
        self.assertEqual(self.window.run("document.getElementById('stop').hidden"), True)
        self.assertEqual(self.audit(statements(HALL)["choir"]), "Yes: every test passed")

    def test_each_width_look_and_language(self) -> None:
        texts = [statements(HALL)["choir"], statements(so_far(HALL, 0))["hall"], statements(SEASON)["Northern-Airways"]]
        for number, (width, dark, language) in enumerate(((1160, False, "de"), (390, True, "en"), (390, False, "de"), (320, True, "de"))):
            self.window.open(width, dark, language)
            for text in texts:
                self.audit(text)
                self.tried()
                with self.subTest(width=width, dark=dark, language=language, text=text[:30]):
                    self.assertEqual(self.window.run(OUTSIDE), [])
                    pairs = self.window.run(COLOURS)
                    self.assertGreater(len(pairs), 3)
                    self.assertEqual([pair for pair in pairs if contrast(*pair) < 4.5], [])
                    self.assertEqual(self.window.run(NAMELESS), [])
                    self.assertEqual(self.window.run(TWICE), [])
                    levels = self.window.run(LEVELS)
                    self.assertEqual(levels[:2], [1, 2])
                    self.assertTrue(all(after - before <= 1 for before, after in zip(levels, levels[1:])))
            self.assertEqual(self.window.complaints(), [], number)

    def test_the_language_of_the_reader(self) -> None:
        self.assertEqual(self.window.words("h1"), "ICE: the bidder’s kit")
        self.window.run("document.querySelector('[data-language=de]').click()")
        self.assertEqual(self.window.words("h1"), "ICE: die Bietermappe")
        self.assertEqual(self.window.run("document.title"), "ICE: die Bietermappe")
        pressed = "[...document.querySelectorAll('[data-language]')].map((one) => one.getAttribute('aria-pressed'))"
        self.assertEqual(self.window.run(pressed), ["false", "true"])
        empty = "[...document.querySelectorAll('[data-say]')].filter(({ textContent }) => !textContent.trim()).length"
        self.assertEqual(self.window.run(empty), 0)
        self.assertEqual(self.window.run("document.querySelectorAll('#glossary dt').length"), 17)

    def test_where_no_worker_is(self) -> None:
        self.window.run("window.Worker = class { constructor() { throw new Error('none'); } }; worker = null; start()")
        self.becomes("#said", "This browser runs no worker, so the kit can’t work in it.")


if __name__ == "__main__":
    unittest.main()
