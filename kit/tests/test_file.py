"""The one file: it is what its parts give, runs no script but its own, and asks nothing of a network."""
from __future__ import annotations

import base64
import hashlib
import re
import subprocess
import tempfile
import unittest
from pathlib import Path
from unittest import mock

from support import HERE, KIT, ROOT, join

FILE = KIT / "ice-kit.html"
SOURCE = FILE.read_text(encoding="utf-8")
SCRIPT = re.compile(r"<script([^>]*)>(.*?)</script>", re.DOTALL)
# What could load something, send it, or make code of a text.
ASKING = re.compile(
    r"https?:|\bsrc=|fetch\(|XMLHttpRequest|WebSocket|EventSource|sendBeacon|import\b|importScripts"
    r"|@import|url\(|\beval\(|new Function|innerHTML|outerHTML|insertAdjacent|document\.write|srcdoc"
    r"|localStorage|sessionStorage|indexedDB|cookie|window\.open|location\s*=|setAttribute\(.on"
)


def hashed(text: str) -> str:
    """A digest as a policy names it."""
    return "sha256-" + base64.b64encode(hashlib.sha256(text.encode()).digest()).decode()


class OneFile(unittest.TestCase):
    """What stands in it."""

    def test_it_is_what_its_parts_give(self) -> None:
        self.assertEqual(SOURCE, join.whole())
        command = [str(KIT / "join"), "--check"]
        self.assertEqual(subprocess.run(command, check=False).returncode, 0)

    def test_another_file_is_told(self) -> None:
        with tempfile.TemporaryDirectory() as folder:
            other = Path(folder, "other.html")
            with mock.patch.object(join, "KIT", other):
                self.assertEqual(join.main([]), 0)
                self.assertEqual((join.main(["--check"]), other.read_text("utf-8")), (0, SOURCE))
                other.write_text(SOURCE.replace("Bietermappe", "Mappe"), "utf-8")
                self.assertEqual(join.main(["--check"]), 1)
        command = [str(KIT / "join"), "--chek"]
        ran = subprocess.run(command, capture_output=True, check=False)
        self.assertEqual((ran.returncode, ran.stdout), (2, b""))
        self.assertIn(b"kit/join --check", ran.stderr)

    def test_a_part_that_would_end_too_early(self) -> None:
        own = join.part
        for name, text in (("work.js", "// </script>"), ("kit.css", "/* </STYLE> */"), ("words.json", "<!--")):
            with mock.patch.object(join, "part", lambda part: text if part == name else own(part)):
                with self.assertRaises(join.TooEarly):
                    join.whole()

    def test_its_parts_are_all_there_is(self) -> None:
        named = {f"{name}.js" for name in join.CORE + join.PAGE} | {"kit.css", "kit.html", "words.json"}
        self.assertEqual({file.name for file in (KIT / "parts").iterdir()}, named)

    def test_its_policy(self) -> None:
        found = re.search(r'Content-Security-Policy" content="([^"]+)"', SOURCE)
        assert found is not None
        policy = found[1]
        parts = dict(part.strip().split(" ", 1) for part in policy.split(";"))
        script = [text for attributes, text in SCRIPT.findall(SOURCE) if not attributes]
        self.assertEqual(len(script), 1)
        style = re.findall(r"<style>(.*?)</style>", SOURCE, re.DOTALL)
        self.assertEqual(
            parts,
            {
                "default-src": "'none'",
                "script-src": f"'{hashed(script[0])}'",
                "style-src": f"'{hashed(style[0])}'",
                "worker-src": "blob:",
                "form-action": "'none'",
                "base-uri": "'none'",
            },
        )
        data = [attributes.strip() for attributes, _ in SCRIPT.findall(SOURCE) if attributes]
        self.assertEqual(data, ['type="application/json" id="table-of-words"', 'type="text/plain" id="core"'])
        # Where a page has a digest in its policy, a style or a handler in a tag does nothing.
        self.assertNotRegex(SOURCE, r"<[^>]+ (?:style|on[a-z]+)=")

    def test_it_asks_nothing(self) -> None:
        self.assertEqual(ASKING.findall(SOURCE), [])
        links = re.findall(r'href="([^"]*)"', SOURCE)
        self.assertEqual([link for link in links if not re.fullmatch(r"#[a-z]+", link)], [])
        targets = set(re.findall(r'\bid="([^"]+)"', SOURCE))
        self.assertLess({link[1:] for link in links}, targets)

    def test_the_tests_are_in_the_gate(self) -> None:
        gate = ROOT / ".ci/run"
        if gate.exists():
            self.assertRegex(gate.read_text(), r"for tests in [^;]*\bkit/tests\b")
        self.assertTrue((HERE / "drawn.py").exists())


if __name__ == "__main__":
    unittest.main()
