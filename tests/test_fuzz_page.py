"""The fuzzer of pages, tables, digests, sheets and bids: some turns, and whether it notices what it must."""
import subprocess
import sys
import tempfile
import unittest
from collections.abc import Callable, Sequence
from importlib.machinery import SourceFileLoader
from importlib.util import module_from_spec, spec_from_loader
from pathlib import Path
from typing import Any

from harness.program import TESTS

TURNS = 1500
PAGE = "<!DOCTYPE html>\n<html><head><title>x</title></head><body>{}</body></html>\n"
Main = Callable[[Sequence[str]], int]


def fuzzer() -> Any:
    """The fuzzer as a module."""
    loader = SourceFileLoader("fuzz_page", str(TESTS / "fuzz_page"))
    spec = spec_from_loader("fuzz_page", loader)
    assert spec is not None
    made = module_from_spec(spec)
    sys.modules["fuzz_page"] = made
    loader.exec_module(made)
    return made


class FuzzPage(unittest.TestCase):
    """What the fuzzer stands on."""

    def test_some_turns(self) -> None:
        words = [sys.executable, str(TESTS / "fuzz_page"), "--turns", str(TURNS), "--seed", "gate"]
        ran = subprocess.run(words, capture_output=True, text=True)
        self.assertEqual(ran.returncode, 0, ran.stdout + ran.stderr)

    def test_what_it_notices(self) -> None:
        fuzz = fuzzer()

        def says(text: str, status: int = 0) -> Main:
            """A command that says a text."""

            def main(_: Sequence[str]) -> int:
                print(text)
                return status

            return main

        def writes(text: str) -> Main:
            """A command that writes a page."""

            def main(words: Sequence[str]) -> int:
                Path(words[0], "page").write_text(text, encoding="utf-8")
                return 0

            return main

        with tempfile.TemporaryDirectory() as made:
            for main, is_page, why in (
                (says("fine"), False, None),
                (says("a\x1bb"), False, "the terminal is told"),
                (says("a\u202eb"), False, "the terminal is told"),
                (says("a\x9bb"), False, "the terminal is told"),
                (says("want of memory", 8), False, "status 8"),
                (writes(PAGE.format("<p>x</p>")), True, None),
                (writes(PAGE.format("a\u2066b")), True, "page is told"),
                (writes(PAGE.format("<script>x</script>")), True, "the element script"),
                (writes(PAGE.format('<p onclick="x">x</p>')), True, "the attribute onclick"),
                (writes(PAGE.format('<p href="x">x</p>')), True, "the attribute href"),
            ):
                call = fuzz.Call(main, ("OUT",), TESTS, is_page)
                if why is None:
                    self.assertEqual(fuzz.judge(call, Path(made)), 0)
                    continue
                with self.assertRaisesRegex(fuzz.Failure, why):
                    fuzz.judge(call, Path(made))
            with self.assertRaises(AssertionError):
                fuzz.judge(fuzz.Call(writes(PAGE.format("<p>")), ("OUT",), TESTS, True), Path(made))


if __name__ == "__main__":
    unittest.main()
