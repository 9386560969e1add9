"""The cells of a table: whole numbers as spreadsheets write them, and names."""
from __future__ import annotations

import re

MINUS_SIGNS = str.maketrans({"−": "-", "–": "-"})
GROUPS = "[.,'’ \u00a0\u2009\u202f]"
WHOLE = re.compile(r"([+-]?)0*([0-9]+)(?:[.,]0{1,2})?")
GROUPED = re.compile(rf"[+-]?[0-9]{{1,3}}(?:{GROUPS}[0-9]{{3}})+")
DECIMAL = re.compile(rf"([+-]?[0-9]+(?:{GROUPS}[0-9]{{3}})*)[.,]([0-9]+)")
SHORTENED = re.compile(r"[+-]?[0-9]+(?:[.,][0-9]+)?[eE][+-]?[0-9]+")
BRACKETS = re.compile(r"\(([0-9]+)\)")
BEHIND = re.compile(r"([0-9]+)-")
NAME = re.compile(r"[A-Za-z0-9_.-]{1,32}")
MOST_DIGITS = 12


class NotWhole(Exception):
    """A cell has no whole number: the text says what it has, and what to write."""


def digits(text: str) -> str:
    """A number without what groups its digits."""
    return re.sub(GROUPS, "", text)


def whole(cell: str, is_value: bool) -> int:
    """The whole number in a cell: `12`, `+12`, `-12` with any minus sign, and `12.0`.

    It is a value or a number of units: that decides what to do about decimals.
    """
    text = cell.strip().translate(MINUS_SIGNS)
    found = WHOLE.fullmatch(text)
    if found and len(found[2]) <= MOST_DIGITS:
        return int(found[1] + found[2])
    raise NotWhole("is too large" if found else reason(text, is_value))


def reason(text: str, is_value: bool) -> str:
    """Why a text is no whole number, and what to do."""
    if not text:
        return "has no number"
    if GROUPED.fullmatch(text):
        return f"has a thousands separator, as it seems: write {digits(text)}"
    if (found := DECIMAL.fullmatch(text)) and not is_value:
        return "is a part of a unit: units are whole; make a smaller unit of the good"
    if found:
        cents = f", here {digits(found[1])}{found[2]:0<2}" if len(found[2]) < 3 else ""
        return f"is a decimal value: numbers are whole; or take cents for all values{cents}"
    if SHORTENED.fullmatch(text):
        return "was shortened by the spreadsheet: show the column with all its digits"
    if found := BRACKETS.fullmatch(text) or BEHIND.fullmatch(text):
        return f"is no whole number: write -{found[1]}"
    if text.startswith("#"):
        return "is the spreadsheet's own sign for a fault: mend the cell there"
    return "is no whole number: digits alone, with a minus in front where it is below 0"


def is_lawful(name: str) -> bool:
    """Whether the program takes a name of a good or a bidder."""
    return NAME.fullmatch(name) is not None


def letter(column: int) -> str:
    """The letters of a column as spreadsheets have them; the first column is 1."""
    letters = ""
    while column:
        column, place = divmod(column - 1, 26)
        letters = chr(ord("A") + place) + letters
    return letters
