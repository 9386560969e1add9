"""A table as a spreadsheet writes it: from its bytes to its lines of cells."""
from __future__ import annotations

import codecs
import csv
import io
import re
from typing import NamedTuple, NoReturn

from .faults import BadTable, Fault, shown
from .limits import FILE_LIMIT

HEADS = ["bidder", "bid", "lo", "hi"]
MARKS = {",": "commas", ";": "semicolons", "\t": "tabs"}
SEPARATOR = re.compile(r'"?sep=."?', re.IGNORECASE)
MOST_TITLES, MOST_ROWS = 10, 10_000
WORKBOOKS = (b"PK\x03\x04", b"\xd0\xcf\x11\xe0")


class Row(NamedTuple):
    """A line of the table with its number in the file, from 1; blanks round cells are left out."""

    line: int
    cells: list[str]


def refuse(line: int, words: str) -> NoReturn:
    """Gives up on the table at a line."""
    raise BadTable([Fault(line, "", words)])


def text_of(data: bytes) -> str:
    """The text of a table: UTF-8 with or without a byte order mark, or UTF-16 with one."""
    if len(data) > FILE_LIMIT:
        refuse(0, f"the table is longer than {FILE_LIMIT:,} bytes")
    if data.startswith(WORKBOOKS):
        refuse(0, "this is a workbook and no CSV: save it as `CSV UTF-8`")
    wide = data.startswith((codecs.BOM_UTF16_LE, codecs.BOM_UTF16_BE))
    try:
        text = data.decode("utf-16" if wide else "utf-8-sig")
    except UnicodeDecodeError as fault:
        refuse(0 if wide else data.count(b"\n", 0, fault.start) + 1, misread(data, fault, wide))
    if "\0" in text:
        refuse(text.count("\n", 0, text.index("\0")) + 1, "a byte 0: save the table as `CSV UTF-8`")
    return text


def misread(data: bytes, fault: UnicodeDecodeError, wide: bool) -> str:
    """Why bytes are no text in the encoding that they seem to have."""
    if wide:
        return "the table is no whole text in UTF-16: save it as `CSV UTF-8`"
    byte = data[fault.start : fault.start + 1]
    letter = byte.decode("cp1252", "replace")
    return (
        f"the byte {byte.hex()} is no UTF-8. In Windows-1252, the plain CSV of Excel, it is "
        f"`{letter}`: save the table as `CSV UTF-8`, or run `iconv -f cp1252 -t utf-8` on it"
    )


class Heads(NamedTuple):
    """Where the heads of a table stand.

    That is the number of lines above them, the mark that cuts the cells, and whether one of the
    lines above says something, as a title does.
    """

    above: int
    mark: str
    has_title: bool


class Rows(NamedTuple):
    """The lines of a table that have something in them, with the heads first."""

    rows: list[Row]
    has_title: bool


def mark_of(line: str) -> str | None:
    """What cuts the cells of a line that has the four heads; None for another line."""
    for mark in MARKS:
        try:
            reader = csv.reader([line], delimiter=mark, skipinitialspace=True)
            cells: list[str] = next(reader, [])
        except csv.Error:
            continue
        if [cell.strip().lower() for cell in cells[:4]] == HEADS:
            return mark
    return None


def heads_of(lines: list[str]) -> Heads:
    """The heads, below Excel's line `sep=;` and up to ten lines of a title where these are there."""
    titles: list[tuple[int, str]] = []
    for number, line in enumerate(lines):
        text = line.strip(" \t\r\n,;")
        if not text or SEPARATOR.fullmatch(line.strip()):
            continue
        if mark := mark_of(line.rstrip("\r\n")):
            return Heads(number, mark, bool(titles))
        titles.append((number + 1, line))
        if len(titles) > MOST_TITLES:
            break
    if not titles:
        refuse(0, "the table is empty")
    marks = ", ".join(MARKS.values())
    number, first = titles[0]
    refuse(
        number,
        f"the heads are {', '.join(HEADS)} and then the names of the goods, cut at {marks}; "
        f"here stands {shown(first)}",
    )


def rows_of(data: bytes) -> Rows:
    """The lines of a table from the heads on."""
    lines = list(io.StringIO(text_of(data), newline=""))
    heads = heads_of(lines)
    reader = csv.reader(
        lines[heads.above :], delimiter=heads.mark, skipinitialspace=True, strict=True
    )
    rows: list[Row] = []
    while True:
        line = heads.above + reader.line_num + 1
        try:
            cells = [cell.strip() for cell in next(reader)]
        except StopIteration:
            return Rows(rows, heads.has_title)
        except csv.Error:
            refuse(line, "a quotation mark that stands alone, or text behind a quoted cell")
        if any(cells):
            rows.append(Row(line, cells))
        if len(rows) > MOST_ROWS:
            refuse(line, f"more than {MOST_ROWS:,} lines: a market has at most 2,000 nodes")
