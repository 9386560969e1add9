"""Calls of each command that the walks make: one that is answered at once, and more that go on."""
from __future__ import annotations

from collections.abc import Mapping, Sequence
from dataclasses import dataclass
from pathlib import Path

from harness.cases import FILES


Word = str | bytes | Path


@dataclass(frozen=True)
class Call:
    """Words on shared files. Words that begin with `@` name one."""

    name: str
    text: str

    def words(self, other: Mapping[int, Word] | None = None) -> list[Word]:
        """The words, with the paths of files, and with others at some places."""
        texts = enumerate(self.text.split())
        return [
            (other or {}).get(place, FILES / text[1:] if text[0] == "@" else text)
            for place, text in texts
        ]

    @property
    def command(self) -> str:
        """The first word."""
        return self.text.split()[0]

    @property
    def files(self) -> Sequence[int]:
        """The places of the words that name files."""
        return [place for place, word in enumerate(self.text.split()) if word[0] == "@"]


CALLS = {
    call.name: call
    for call in (
        Call("check, closed at once", "check @sale.session"),
        Call("check, with a round", "check @rounds.session"),
        Call("check, at fault", "check @unmatched.assign"),
        Call("run, closed at once", "run @sale.exchange"),
        Call("run, with a round", "run @tightened.exchange @eight.round"),
        Call("run, open", "run @tightened.exchange @none.round @none.round"),
        Call("run, at a limit", "run @limit.exchange"),
        Call("simulate", "simulate @two.json @two.truths"),
        Call("regret", "regret @choice.exchange"),
        Call("replay", "replay @rounds.session 1"),
        Call("migrate", "migrate @sale.session"),
        Call("statement", "statement @rounds.session b"),
        Call("audit", "audit @buyer.statement"),
        Call("fair", "fair @lump-sold.session"),
        Call("fair, at a limit", "fair @pinned.session"),
        Call("gap", "gap @spent-round.session"),
        Call("gap, where none is", "gap @rounds.session"),
        Call("best", "best @sale.json @fifteen.prices"),
        Call("xor", "xor @sales.json"),
        Call("gen", "gen 7"),
        Call("other words", "verify"),
    )
}
