"""What other people's files say, in characters that a terminal shows and doesn't obey."""
from __future__ import annotations


def spelled(text: str) -> str:
    r"""A text in which each character that isn't printable is spelled, as `\x1b` or `\u202e`.

    So no escape sequence reaches a terminal, and nothing turns the order of what stands beside it.
    """
    if text.isprintable():
        return text
    return "".join(each if each.isprintable() else escape(each) for each in text)


def escape(character: str) -> str:
    """How a character is spelled."""
    return character.encode("unicode_escape").decode("ascii")
