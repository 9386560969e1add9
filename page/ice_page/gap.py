"""What is known where a search spent its branches: whether `ice gap` passes what it found, and what
of the settlement stands by itself."""
from __future__ import annotations

import hashlib
import subprocess
from enum import Enum
from fractions import Fraction
from pathlib import Path

from . import numbers
from .checker import PROGRAM, Answer
from .journal import Journal
from .lines import BLOCK
from .markup import foreign, text
from .view import View

SECONDS = 600


class Known(Enum):
    """How much is known of a gap that a journal states."""

    TESTED = "tested"
    STATED = "stated"
    REFUTED = "refuted"


def due_gap(journal: Journal) -> str:
    """The answer of `ice gap` on a journal that ends so, where every test passes."""
    group = journal.last.spent
    if group is None or journal.end.word != "spent":
        return ""
    word, _, name = group.seeks.partition(" ")
    bidder = [str([each.name for each in journal.bidders].index(name))] if name else []
    return " ".join(["gap", word, *bidder, str(group.value), str(group.bound)])


def ask_gap(journal: Journal, file: str, program: str | None = None) -> Answer:
    """What `ice gap` says of the journal in a file; no answer where its bytes are others by now."""
    asked = str(program or PROGRAM)
    summed = hashlib.sha256()
    with open(file, "rb") as stream, subprocess.Popen(
        [asked, "gap", "/dev/stdin"],
        stdin=subprocess.PIPE,
        stdout=subprocess.PIPE,
        stderr=subprocess.DEVNULL,
    ) as made:
        assert made.stdin is not None and made.stdout is not None
        try:
            while block := stream.read(BLOCK):
                summed.update(block)
                made.stdin.write(block)
            made.stdin.close()
        except BrokenPipeError:
            pass
        said = made.stdout.read(4096).decode("utf-8", "replace").strip()
        status = made.wait(SECONDS)
    if summed.hexdigest() != journal.digest:
        return Answer()
    return Answer(said, f"{Path(asked).name} gap", status)


def known(view: View) -> Known:
    """How much is known of the gap that the journal states."""
    due = due_gap(view.journal)
    if not view.gap.is_verdict():
        return Known.STATED
    return Known.TESTED if due and (view.gap.text, view.gap.status) == (due, 0) else Known.REFUTED


def tested_words(view: View) -> str:
    """Whether what a spent search found was tested, as the end of a sentence."""
    if known(view) is Known.TESTED:
        return "; <code>ice gap</code> tested this, and every test passed"
    if known(view) is Known.REFUTED:
        said = f"“{foreign(view.gap.text)}”"
        return f"; <strong>this fails a test</strong>: <code>ice gap</code> answers {said}"
    return "; the journal states this, and <code>ice gap</code> tests it"


def stands(view: View) -> str:
    """What of the last settlement stands where a later search was spent, as a sentence."""
    last = view.journal.last
    group, final = last.spent, last.group("final")
    if group is None or final is None:
        return ""
    if not view.is_proven:
        what = "final trade stands" if last.regret is None else "final trade and its regret stand"
        return f" The {what} before that search, and <code>ice check</code> tests it."
    if last.regret is None:
        return f" The final trade is the best one at lower values{regret_words(view)}."
    kept = f"The final trade stands, and no other trade can be worth over {numbers.whole(last.regret)}"
    if group.seeks == "provisional":
        return f" {kept} more; the session isn’t closed, and no prices are offered."
    bidder = text(group.seeks.partition(" ")[2])
    return (
        f" {kept} more. What each pays isn’t known: that wants the best trade without {bidder} and "
        "without each bidder behind."
    )


def regret_bounds(view: View) -> tuple[int, int] | None:
    """The least and the most that the regret may be, where the search for the rival was spent."""
    group, final = view.journal.last.spent, view.journal.last.group("final")
    if group is None or final is None or group.seeks != "rival":
        return None
    if not view.is_proven or known(view) is not Known.TESTED:
        return None
    value = final.value or 0
    return max(0, (group.value or 0) - value), max(0, (group.bound or 0) - value)


def regret_words(view: View) -> str:
    """What is known of the regret where the search for the rival was spent."""
    bounds = regret_bounds(view)
    if bounds is None:
        return ", and its regret isn’t known"
    return f", and its regret is from {numbers.whole(bounds[0])} to {numbers.whole(bounds[1])}"


NOTES = {
    Known.TESTED: ("every test of <code>ice gap</code> passed", "good"),
    Known.STATED: ("as the journal states: not tested", "soft"),
    Known.REFUTED: ("it fails a test: don’t rely on it", "bad"),
}


def missed(view: View) -> tuple[str, str, str] | None:
    """The gap as a number, with a note and the class of its colour, where a search was spent."""
    group = view.journal.last.spent
    if group is None or view.alone:
        return None
    scale = 100 if group.seeks == "provisional" else 1
    number = numbers.decimal(Fraction((group.bound or 0) - (group.value or 0), scale))
    return number + view.with_unit, *NOTES[known(view)]


def share(value: int, bound: int) -> str:
    """How much more than a value may be possible, in tenths of a per cent rounded up."""
    if value <= 0:
        return ""
    tenths = -(1000 * (value - bound) // value)
    return f", a gap of {tenths // 10}.{tenths % 10} %"


def spent_words(view: View) -> str:
    """What a search that was spent has found."""
    branches, group = view.journal.settings.branches, view.journal.last.spent
    few = f"{numbers.plural(branches, 'branch step')} {'was' if branches == 1 else 'were'} too few"
    if view.alone or group is None:
        return few
    scale = 100 if group.seeks == "provisional" else 1
    found, most = (
        numbers.decimal(Fraction(number or 0, scale)) for number in (group.value, group.bound)
    )
    return (
        f"{few} in the search <code>{group.seeks}</code>: it found {found}, where at most {most} is "
        f"possible{share(group.value or 0, group.bound or 0)}{tested_words(view)}"
    )
