"""The command `ice-table`: its words, and the status that it ends with."""
from __future__ import annotations

import argparse
import csv
import io
import json
import os
import tempfile
from fractions import Fraction
from pathlib import Path
from typing import TYPE_CHECKING, Any, BinaryIO, Iterator, Sequence, TextIO

from .tables import Table, Value, read_tables
from .terminal import DONE, LAST_STATUSES, UNWRITTEN, Ending, Words, coins_of, ends, reading
from .terminal import say, source, standard_output, writing

if TYPE_CHECKING:
    from _typeshed import ReadableBuffer as Buffer

NAME = "ice-table"
NAMES = ("payments", "trades", "prices", "settlements", "bids")
PLACES = 6
TEMPORARY = "a temporary file"
ABOUT = """\
Writes a journal as tables in CSV: payments.csv, trades.csv, prices.csv, settlements.csv and
bids.csv, or with --json as one document on standard output. Each fraction stands as a decimal, with
six places at most, and exactly, as numerator and denominator."""
STATUSES = (
    "status: 0 the tables are written, 1 the words are wrong, 2 the file is no journal (standard "
    "error names the line), 6 it could not be read, 7 a table could not be written, "
    f"{LAST_STATUSES}"
)


class OldName(argparse.Action):
    """An option by the name that it had before: it is taken, with a word."""

    def __call__(
        self,
        parser: argparse.ArgumentParser,
        namespace: argparse.Namespace,
        values: Any,
        option_string: str | None = None,
    ) -> None:
        say(f"{NAME}: {option_string} is called --unit-coins now")
        setattr(namespace, self.dest, values)


def words() -> Words:
    """The words that are understood."""
    parser = Words(
        prog=NAME,
        epilog=STATUSES,
        allow_abbrev=False,
        description=ABOUT,
        formatter_class=argparse.RawDescriptionHelpFormatter,
    )
    parser.add_argument(
        "journal",
        metavar="JOURNAL",
        help="a journal of kind assign, regret or session; - is standard input",
    )
    parser.add_argument("folder", metavar="FOLDER", nargs="?", help="where the tables go")
    parser.add_argument("--json", action="store_true", help="one document in place of a folder")
    parser.add_argument(
        "--unit-coins",
        metavar="COINS",
        type=coins_of,
        help="payments in whole coins too: how many coins a unit of the values has, 100 where these "
        "are euros and 1 where they are cents; by the largest remainder: their sum stays",
    )
    parser.add_argument(
        "--round",
        dest="unit_coins",
        type=coins_of,
        action=OldName,
        help=argparse.SUPPRESS,
    )
    parser.add_argument(
        "--semicolon",
        action="store_true",
        help="cells cut at semicolons, decimals with a comma, and a byte order mark",
    )
    return parser


def decimal(number: Fraction) -> str:
    """A number with as many places as it needs, six at most; half goes to the even digit."""
    scaled = round(number * 10**PLACES)
    before, after = divmod(abs(scaled), 10**PLACES)
    behind = f".{after:0{PLACES}}".rstrip("0").rstrip(".")
    sign = "-" if scaled < 0 else ""
    return f"{sign}{before}{behind}"


def cell(value: Value, comma: bool) -> str:
    """A cell of a table."""
    if type(value) is Fraction:
        return decimal(value).replace(".", "," if comma else ".")
    return "" if value is None else str(value)


def write_table(table: Table, stream: TextIO, semicolon: bool) -> None:
    """Writes a table in CSV, each row as it is made."""
    writer = csv.writer(stream, delimiter=";" if semicolon else ",", lineterminator="\n")
    writer.writerow(table.heads)
    for row in table.rows:
        writer.writerow([cell(value, semicolon) for value in row])


def spelled(value: Value) -> str:
    """A cell of a document in JSON."""
    if type(value) is not Fraction:
        return json.dumps(value)
    return str(value) if value.denominator == 1 else repr(float(decimal(value)))


def document(tables: list[Table]) -> Iterator[str]:
    """The pieces of the tables as one value: for each an array of objects with its heads."""
    between = "{"
    for table in tables:
        yield f'{between}\n "{table.name}": ['
        mark = ""
        for row in table.rows:
            members = (f'   "{head}": {spelled(cell)}' for head, cell in zip(table.heads, row))
            yield f"{mark}\n  {{\n" + ",\n".join(members) + "\n  }"
            mark = ","
        yield "\n ]" if mark else "]"
        between = ","
    yield "\n}\n"


def write_folder(tables: list[Table], folder: Path, semicolon: bool) -> None:
    """Writes each table to its file, in a folder that is made where it is missing."""
    with writing(str(folder)):
        folder.mkdir(parents=True, exist_ok=True)
    encoding = "utf-8-sig" if semicolon else "utf-8"
    for table in tables:
        file = folder / f"{table.name}.csv"
        with writing(str(file)), file.open("w", encoding=encoding, newline="") as stream:
            write_table(table, stream, semicolon)


def write_document(tables: list[Table]) -> None:
    """Writes the tables as one document to standard output."""
    with standard_output() as output:
        output.writelines(document(tables))


def overwrites(journal: str, folder: Path) -> bool:
    """Whether a table would be written over the journal."""
    files = [folder / f"{name}.csv" for name in NAMES]
    there = os.path.exists(journal) and [file for file in files if file.exists()]
    return any(os.path.samefile(journal, file) for file in there or [])


class Aside(io.BufferedRandom):
    """A file without a name, into which the lines of bids are put until they are made rows."""

    def __init__(self) -> None:
        with writing(TEMPORARY):
            handle, name = tempfile.mkstemp()
            os.unlink(name)
        super().__init__(io.FileIO(handle, "r+b"))

    def write(self, line: "Buffer") -> int:
        """Puts a line aside; the command ends where there is no place for it."""
        try:
            return super().write(line)
        except OSError as fault:
            raise Ending(UNWRITTEN, f"{TEMPORARY}: {fault.strerror}") from None

    def close(self) -> None:
        """Throws it away, with what couldn't be written."""
        try:
            super().close()
        except OSError:
            pass


def meant(arguments: Sequence[str] | None) -> argparse.Namespace:
    """What the words say, which has to go together."""
    parser = words()
    options = parser.read(arguments)
    if options.json == (options.folder is not None):
        parser.error("give a FOLDER for tables, or --json for one document")
    if options.json and options.semicolon:
        parser.error("--semicolon goes with a FOLDER")
    with reading(options.journal):
        if options.folder and options.journal != "-":
            if overwrites(options.journal, Path(options.folder)):
                parser.error("a table would overwrite the journal")
    return options


def read(options: argparse.Namespace, aside: BinaryIO) -> list[Table]:
    """The tables of the journal, whose bids are put aside."""
    with reading(options.journal), source(options.journal) as stream:
        tables = read_tables(stream, options.unit_coins, aside)
    with writing(TEMPORARY):
        aside.flush()
    return tables


@ends(NAME)
def main(arguments: Sequence[str] | None = None) -> int:
    """Makes the tables, and answers the status."""
    options = meant(arguments)
    with Aside() as aside:
        tables = read(options, aside)
        if options.json:
            write_document(tables)
        else:
            write_folder(tables, Path(options.folder), options.semicolon)
    return DONE
