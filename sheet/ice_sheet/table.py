"""What a table says: goods, and bidders with what they own and their packages."""
from __future__ import annotations

from dataclasses import dataclass, field
from typing import NamedTuple

from .cells import NotWhole, is_lawful, letter, whole
from .faults import MOST_NOTED, BadTable, Fault, shown
from .reading import HEADS, Row

MOST_GOODS, MOST_BIDDERS, MOST_TREE, MOST_NODES = 32, 40, 200, 2000
MOST_UNITS, MOST_OWNED, MOST_VALUE = 1000, 10**6, 10**9
FORMS, EACH = ("xor", "or"), "each"
NO_NAME = "is no lawful name: 1 to 32 of A-Z a-z 0-9 _ - . (as Baecker for Bäcker)"


class Good(NamedTuple):
    """A good and its column; of an exact one all that is sold must be bought."""

    name: str
    exact: bool
    column: int


class Package(NamedTuple):
    """A package: its line, its units by good, those sold below 0, and its values."""

    line: int
    units: dict[str, int]
    lo: int
    hi: int


@dataclass
class Bidder:
    """A bidder of a table, with the line that names it first."""

    name: str
    line: int
    own: dict[str, int] | None = None
    form: str = ""
    packages: list[Package] = field(default_factory=list)

    @property
    def nodes(self) -> int:
        """The nodes of its tree: the root, and one for each package and each of its goods."""
        return 1 + sum(1 + len(package.units) for package in self.packages)


@dataclass
class Table:
    """A table that was read without a fault."""

    goods: list[Good]
    bidders: list[Bidder]


class Reader:
    """Reads a table line by line, and goes on behind a fault, so that all faults are told."""

    def __init__(self, rows: list[Row]) -> None:
        self.rows = rows
        self.heads = rows[0].cells
        self.faults: list[Fault] = []
        self.goods: list[Good] = []
        self.bidders: dict[str, Bidder] = {}

    def read(self) -> Table:
        """The table; BadTable with all its faults where it has some."""
        self.read_heads()
        for row in self.rows[1:]:
            self.read_row(row)
        if len(self.rows) == 1:
            self.fault(self.rows[0].line, 0, "no bidder stands below the heads")
        if self.faults:
            raise BadTable(self.faults)
        return Table(self.goods, list(self.bidders.values()))

    def fault(self, line: int, column: int, words: str) -> None:
        """Notes a fault; column 0 is the line as a whole. Of very many faults the rest isn't read."""
        head = self.heads[column - 1] if 0 < column <= len(self.heads) else ""
        place = letter(column) + (f" ({head})" if head else "")
        self.faults.append(Fault(line, place, words))
        if len(self.faults) == MOST_NOTED:
            raise BadTable(self.faults)

    def read_heads(self) -> None:
        """The goods that the heads name; `=` behind a name says that the good is exact."""
        line = self.rows[0].line
        names: dict[str, int] = {}
        for column, head in enumerate(self.heads[len(HEADS) :], len(HEADS) + 1):
            if not head:
                continue
            name = head.removesuffix("=").strip()
            if not is_lawful(name):
                self.fault(line, column, f"{shown(name)} {NO_NAME}")
            elif name in names:
                self.fault(line, column, f"column {letter(names[name])} has this head already")
            names[name] = column
            self.goods.append(Good(name, head.endswith("="), column))
        if not self.goods:
            self.fault(line, 0, "no good stands behind the four heads")
        if len(self.goods) > MOST_GOODS:
            self.fault(line, 0, f"{len(self.goods)} goods: there are at most {MOST_GOODS}")

    def read_row(self, row: Row) -> None:
        """A line: what a bidder owns, or a package."""
        cells = row.cells + [""] * (len(self.heads) - len(row.cells))
        for column, cell in enumerate(cells, 1):
            if cell and (column > len(self.heads) or not self.heads[column - 1]):
                self.fault(row.line, column, f"{shown(cell)} stands below no head: leave it out")
        name, bid = cells[0], cells[1].lower()
        if not is_lawful(name):
            self.fault(row.line, 1, f"{shown(name)} {NO_NAME}" if name else "no bidder is named")
            return
        bidder = self.bidders.setdefault(name, Bidder(name, row.line))
        if bid == "own":
            self.read_own(bidder, row.line, cells)
        elif bid.removesuffix("!") in (*FORMS, EACH):
            self.read_package(bidder, row.line, cells, bid)
        else:
            words = "a bid is `own`, `xor`, `or` or `each`, with a `!` behind where its sign is meant"
            self.fault(row.line, 2, f"{shown(cells[1])}: {words}")

    def number(
        self, line: int, column: int, cell: str, low: int, high: int, *, is_value: bool = False
    ) -> int:
        """The whole number in a cell, from low to high; 0 where there is none."""
        try:
            number = whole(cell, is_value)
        except NotWhole as why:
            self.fault(line, column, f"{shown(cell)} {why}" if cell else str(why))
            return 0
        if not low <= number <= high:
            self.fault(line, column, f"{shown(cell)} is not within {low:,} to {high:,}")
        return number

    def amounts(self, line: int, cells: list[str], low: int, high: int) -> dict[str, int]:
        """The numbers below the goods, without those that are 0."""
        found = {}
        for good in self.goods:
            cell = cells[good.column - 1]
            if cell and (number := self.number(line, good.column, cell, low, high)):
                found[good.name] = number
        return found

    def read_own(self, bidder: Bidder, line: int, cells: list[str]) -> None:
        """A line of what a bidder owns."""
        if bidder.own is not None:
            self.fault(line, 0, f"{bidder.name} has a line `own` already")
        for column in (3, 4):
            if cells[column - 1] not in ("", "0"):
                self.fault(line, column, "a line `own` has no values: leave the cell empty")
        bidder.own = self.amounts(line, cells, 0, MOST_OWNED)

    def read_package(self, bidder: Bidder, line: int, cells: list[str], bid: str) -> None:
        """A line of a package, or of each number of units, which is lots of which any are taken."""
        word = bid.removesuffix("!")
        form = "or" if word == EACH else word
        if bidder.form not in ("", form):
            words = f"{bidder.name} has `{bidder.form}` above: all packages of a bidder are alike"
            self.fault(line, 2, words + ", and those of `each` are `or`" * (word == EACH))
        bidder.form = bidder.form or form
        before = len(self.faults)
        lo, hi = (
            self.number(
                line, column, cells[column - 1], -MOST_VALUE, MOST_VALUE, is_value=True
            )
            for column in (3, 4)
        )
        units = self.amounts(line, cells, -MOST_UNITS, MOST_UNITS)
        package = Package(line, units, lo, hi)
        if len(self.faults) == before:
            self.judge(package, is_meant=bid.endswith("!"))
        if len(self.faults) == before and word == EACH:
            bidder.packages += self.lots(package)
        else:
            bidder.packages.append(package)

    def lots(self, each: Package) -> list[Package]:
        """The lots of a line `each`, whose values are those of one unit."""
        if len(each.units) != 1:
            words = f"a line `each` has units of one good, and here are {len(each.units)}"
            self.fault(each.line, 2, words)
            return [each]
        [(good, units)] = each.units.items()
        lots = [
            Package(each.line, {good: lot}, abs(lot) * each.lo, abs(lot) * each.hi)
            for lot in lots_of(units)
        ]
        for lot in lots:
            if value := next((it for it in (lot.lo, lot.hi) if abs(it) > MOST_VALUE), None):
                words = f"{abs(lot.units[good])} units come to {value:,}, and a value is within "
                self.fault(each.line, 0, f"{words}{MOST_VALUE:,} in size")
                break
        return lots

    def judge(self, package: Package, is_meant: bool) -> None:
        """Notes what is wrong with a package whose cells are all right."""
        line, units, lo, hi = package
        amounts = units.values()
        if not units:
            self.fault(line, 0, "a package with no units: it buys or sells at least one good")
        elif lo > hi:
            self.fault(line, 3, f"lo {lo} is above hi {hi}: the lower value stands first")
        elif hi > 0 and max(amounts) < 0 and not is_meant:
            self.fault(line, 4, sale_words(lo, hi))
        elif lo < 0 and min(amounts) > 0 and not is_meant:
            self.fault(line, 3, purchase_words(lo))


def lots_of(units: int) -> list[int]:
    """Lots of 1, 2, 4, 8 .. units and the rest: their sums are each number from 0 to all units."""
    sign, left = (1 if units > 0 else -1), abs(units)
    lots: list[int] = []
    while left:
        lot = min(2 ** len(lots), left)
        lots.append(sign * lot)
        left -= lot
    return lots


def sale_words(lo: int, hi: int) -> str:
    """What is said of a sale with a positive value."""
    asked = f"who asks {lo} to {hi} for it writes lo {-hi}, hi {-lo}; " if lo > 0 else ""
    return (
        f"a sale of value {hi}: this bidder would pay up to {hi} to be rid of it. A sale's values "
        f"are below 0: {asked}where it is meant, write `xor!` or `or!`"
    )


def purchase_words(lo: int) -> str:
    """What is said of a purchase with a negative value."""
    return (
        f"a purchase of value {lo}: this bidder would want {-lo} for taking it. Units that are "
        f"sold stand as numbers below 0; where it is meant, write `xor!` or `or!`"
    )


def faults_of_market(table: Table) -> list[Fault]:
    """What keeps a table that was read from being a market of its own."""
    faults = [fault for bidder in table.bidders for fault in faults_of_bidder(bidder)]
    if len(table.bidders) > MOST_BIDDERS:
        words = f"{len(table.bidders)} bidders: there are at most {MOST_BIDDERS}"
        faults.append(Fault(0, "", words))
    nodes = sum(bidder.nodes for bidder in table.bidders)
    if nodes > MOST_NODES:
        faults.append(Fault(0, "", f"the trees come to {nodes} nodes, of at most {MOST_NODES}"))
    return faults


def faults_of_bidder(bidder: Bidder) -> list[Fault]:
    """What is wrong with a bidder as a whole."""
    faults = []
    if not bidder.packages:
        words = f"{bidder.name} has no package: write a line `xor`, `or` or `each`, or leave it out"
        faults.append(Fault(bidder.line, "", words))
    if bidder.nodes > MOST_TREE:
        words = (
            f"the packages of {bidder.name} come to {bidder.nodes} nodes, of at most {MOST_TREE}: "
            f"each package takes one, and one for each of its goods"
        )
        faults.append(Fault(bidder.line, "", words))
    sold: dict[str, int] = {}
    for package in bidder.packages:
        for good, units in package.units.items():
            before = sold.get(good, 0) if bidder.form == "or" else 0
            sold[good] = before + max(0, -units)
            owned = (bidder.own or {}).get(good, 0)
            if before <= owned < sold[good]:
                words = f"{bidder.name} sells {sold[good]} of {good} here and owns {owned}"
                in_all = " (with `or` all sales count together)" if before else ""
                faults.append(Fault(package.line, "", words + in_all))
    return faults
