"""Text that somebody else may have written, as it can be shown."""
from __future__ import annotations

import re
import unicodedata

ISOLATE, POP = "\u2068", "\u2069"
ISOLATED = re.compile(f"{ISOLATE}([^{ISOLATE}{POP}]*){POP}")
RIGHT_TO_LEFT = ("R", "AL", "AN")


def is_shown(letter: str) -> bool:
    """Whether a character is shown as it is: it is printable, or a space."""
    return letter.isprintable() or unicodedata.category(letter) == "Zs"


def plain(text: str) -> str:
    """The text with each character spelled out that isn't shown, such as `\\x1b` or `\\u202e`.

    These are control characters, which a terminal obeys, marks that turn round what stands beside
    them, and bytes of a name that are no text.
    """
    if text.isprintable():
        return text
    return "".join(
        letter if is_shown(letter) else letter.encode("unicode_escape").decode() for letter in text
    )


def isolated(name: str) -> str:
    """A name that turns nothing beside it: with letters from right to left it is an isolate.

    Its two marks stand for `<bdi>`, also in drawings and in attributes.
    """
    turns = any(unicodedata.bidirectional(letter) in RIGHT_TO_LEFT for letter in name)
    return f"{ISOLATE}{name}{POP}" if turns else name


def isolated_lines(lines: list[str]) -> list[str]:
    """Lines that were one: an isolate that goes on over the end of a line is one on each."""
    found, goes_on = [], False
    for line in lines:
        begun = f"{ISOLATE}{line}" if goes_on else line
        goes_on = begun.rfind(ISOLATE) > begun.rfind(POP)
        found.append(f"{begun}{POP}" if goes_on else begun)
    return found


def plain_around(text: str) -> str:
    """The text as `plain` gives it, in which isolates stay."""
    if text.isprintable():
        return text
    # Each second part is what stands in an isolate.
    parts = [plain(part) for part in ISOLATED.split(text)]
    parts[1::2] = [f"{ISOLATE}{part}{POP}" for part in parts[1::2]]
    return "".join(parts)
