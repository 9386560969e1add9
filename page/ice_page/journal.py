"""What a journal says, read record by record: it is retold and not judged."""
from __future__ import annotations

from collections import Counter
from dataclasses import dataclass, field
from fractions import Fraction
from typing import Any, NamedTuple

from .lines import BadJournal, Lines, Log
from .records import Record

KINDS = ("1 assign", *(f"{n} {kind}" for n in (1, 2, 3) for kind in ("regret", "session")))
LEAVES = {1: "leaf", 2: "near", 3: "tolled"}
MOST_GOODS, MOST_BIDDERS, MOST_NODES = 32, 40, 2000
MOST_TREE, MOST_DEPTH = 200, 16
MOST_UNKNOWN = 20
MOST_KEPT = 400

Bounds = tuple[list[int], list[int]]


class Settings(NamedTuple):
    """The settings of an exchange, in the order of their record."""

    weight: int
    close_regret: int
    cap: int
    improve: int
    rounds: int
    branches: int
    derived: int = 0

    def members(self) -> dict[str, int]:
        """The settings by their names, as files have them: without derived goods where none are."""
        return {name: value for name, value in self._asdict().items() if name != "derived" or value}


class Good(NamedTuple):
    """A good; of an exact one all that is sold must be bought."""

    name: str
    exact: bool


@dataclass
class Node:
    """A node of a bidder's tree, with the numbers of its children.

    `kind` is `choose`, `buy` or `sell`; `first` and `second` are least and most of a choose node,
    and the good and the units of a leaf.
    """

    number: int
    kind: str
    first: int
    second: int
    up: int | None
    depth: int
    children: list[int] = field(default_factory=list)


@dataclass
class Bidder:
    """A bidder, its owned amounts in the order of the goods, and its tree in preorder."""

    name: str
    owned: list[int]
    nodes: list[Node]

    def units(self, bits: str, goods: int) -> list[int]:
        """The units that a set buys of each good, less what it sells."""
        units = [0] * goods
        for node, bit in zip(self.nodes, bits):
            if bit == "1" and node.kind != "choose":
                units[node.first] += node.second if node.kind == "buy" else -node.second
        return units


@dataclass
class Group:
    """A search: what it looked for, the sets that it found, and its log.

    `seeks` is `final`, `rival`, `provisional`, or `without` and a name. A spent search has a
    `bound`: the most that is possible. `derived` has the logs of the derived goods that are stated
    for it.
    """

    seeks: str
    value: int | None
    sets: list[str]
    log: Log | None
    bound: int | None = None
    derived: list[Log] = field(default_factory=list)


class Judged(NamedTuple):
    """A bid: its bidder where there is one of its name, verdict, name, and the node at fault."""

    bidder: int | None
    verdict: str
    who: str
    node: int | None = None


class Bid(NamedTuple):
    """A bid with its numbers: the lower and upper values, the verdict, and the node at fault."""

    low: list[int]
    high: list[int]
    verdict: str
    node: int | None = None


@dataclass
class Settlement:
    """A settlement: bounds of each bidder, searches, prices, and the bids that followed.

    Bids are counted, where they are many without the node at fault. Of the bidder whose bids are
    kept, `kept` has them in their order: at most 400. `tries` has the last refused bid of each
    bidder, in the last settlement behind which any was refused.
    """

    number: int
    bounds: list[Bounds]
    groups: list[Group] = field(default_factory=list)
    regret: int | None = None
    prices: list[Fraction] | None = None
    rows: tuple[int, int] = (0, 0)
    bids: Counter[Judged] = field(default_factory=Counter)
    kept: list[Bid] = field(default_factory=list)
    tries: dict[int, Bid] = field(default_factory=dict)

    def group(self, seeks: str) -> Group | None:
        """The search of this kind that was done to its end."""
        return next((g for g in self.groups if g.seeks == seeks and g.bound is None), None)

    @property
    def derived(self) -> list[Log]:
        """The logs of all derived goods that are stated in it."""
        return [log for group in self.groups for log in group.derived]

    @property
    def spent(self) -> Group | None:
        """The search that was spent."""
        return next((g for g in self.groups if g.bound is not None), None)


class Payment(NamedTuple):
    """What a bidder pays, its discount, and its Vickrey discount."""

    vickrey: int
    discount: Fraction
    payment: Fraction


class Stop(NamedTuple):
    """How a journal ends: at which word and line, and the fields of the record there.

    The words are `assign`, `regret` and `closed`, and the stops `open`, `spent`, `limit`,
    `refused` and `unread`.
    """

    word: str
    line: int
    fields: list[Any]


@dataclass
class Journal:
    """A journal of kind assign, regret or session, or what a statement says of a session.

    A statement has no version, and one bidder; of the searches it has that bidder's sets alone.
    """

    version: int
    kind: str
    settings: Settings
    of_statement: bool = False
    goods: list[Good] = field(default_factory=list)
    bidders: list[Bidder] = field(default_factory=list)
    opening: list[Bounds] = field(default_factory=list)
    settlements: list[Settlement] = field(default_factory=list)
    payments: list[Payment] = field(default_factory=list)
    cut: Fraction = Fraction(0)
    surplus: Fraction = Fraction(0)
    stop: Stop | None = None
    size: int = 0
    lines: int = 0
    digest: str = ""

    @property
    def end(self) -> Stop:
        """How the journal ends; a journal that was read to its end has it."""
        assert self.stop is not None
        return self.stop

    @property
    def last(self) -> Settlement:
        """The last settlement."""
        return self.settlements[-1]

    @property
    def shown(self) -> Group:
        """The search whose trade is the journal's: the last final one, or the one spent for it."""
        shown = self.last.group("final") or self.last.spent
        assert shown is not None
        return shown


class Reader:
    """Reads a journal from its lines; of one bidder it keeps the bids with their numbers."""

    def __init__(self, lines: Lines, kept: str | None = None) -> None:
        self.lines, self.kept = lines, kept
        head, (kind,) = lines.take("ice")
        spelled = f"{head[4:]} {kind}"
        lines.require(
            spelled in KINDS, f"`ice {spelled}` heads no journal of kind assign, regret or session"
        )
        # Seven numbers pass in each version till the program writes version 3; then in 3 alone.
        version, settings = int(head[4:]), Settings(*lines.take("settings").fields)
        self.journal, self.leaf = Journal(version, kind, settings), LEAVES[version]

    def read(self) -> Journal:
        """The whole journal; BadJournal where the file is none."""
        self.read_exchange()
        {"assign": self.read_assign, "regret": self.read_regret, "session": self.read_session}[
            self.journal.kind
        ]()
        return self.whole()

    def whole(self) -> Journal:
        """What was read, which has to be all of the file."""
        journal, lines = self.journal, self.lines
        if not lines.ended:
            lines.bad(f"`{lines.line[:60]}` stands after the end")
        journal.lines, journal.size = lines.number - 1, lines.size
        journal.digest = lines.hash.hexdigest()
        return journal

    # The exchange

    def read_exchange(self) -> None:
        """Goods, and bidders with their trees."""
        self.read_goods()
        while self.lines.word == "bidder" or not self.journal.bidders:
            self.read_bidder()

    def read_goods(self) -> None:
        """The goods."""
        journal, lines = self.journal, self.lines
        while lines.word in ("good", "exact") or not journal.goods:
            record = lines.take("good", "exact")
            journal.goods.append(Good(record.fields[0], record.head == "exact"))
            lines.require(len(journal.goods) <= MOST_GOODS, f"more than {MOST_GOODS} goods")

    def read_bidder(self) -> None:
        """A bidder with its tree."""
        journal, lines = self.journal, self.lines
        name, owned = lines.take("bidder").fields
        self.require_own(name)
        count = len(journal.goods)
        lines.require(len(owned) == count, f"{len(owned)} owned amounts for {count} goods")
        bidder = Bidder(name, owned, [])
        bounds: Bounds = ([], [])
        self.read_node(bidder.nodes, bounds, None, 1)
        journal.bidders.append(bidder)
        journal.opening.append(bounds)
        lines.require(len(journal.bidders) <= MOST_BIDDERS, f"more than {MOST_BIDDERS} bidders")
        nodes = sum(len(each.nodes) for each in journal.bidders)
        lines.require(nodes <= MOST_NODES, f"more than {MOST_NODES:,} nodes in all")

    def require_own(self, name: str) -> None:
        """Gives up where the record that was taken last may not be of a bidder of this name.

        In a journal it may be of any.
        """

    def read_node(self, nodes: list[Node], bounds: Bounds, up: int | None, depth: int) -> None:
        """A node with all below it."""
        lines = self.lines
        record = lines.take("node")
        first, second, *children, low, high = record.fields
        kind = record.head.partition(" ")[2]
        lines.require(kind == "choose" or first < len(self.journal.goods), f"no good {first}")
        lines.require(len(nodes) < MOST_TREE, f"a tree of more than {MOST_TREE} nodes")
        lines.require(depth <= MOST_DEPTH, f"a tree deeper than {MOST_DEPTH} nodes")
        node = Node(len(nodes), kind, first, second, up, depth)
        nodes.append(node)
        bounds[0].append(low)
        bounds[1].append(high)
        for _ in range(children[0] if children else 0):
            node.children.append(len(nodes))
            self.read_node(nodes, bounds, node.number, depth + 1)

    # The kinds

    def read_assign(self) -> None:
        """Sets alone."""
        settlement = self.new_settlement(self.journal.opening)
        self.lines.take("assign")
        settlement.groups.append(Group("final", None, self.read_sets(), None))
        self.end("assign")

    def read_regret(self) -> None:
        """The final sets and the rival's."""
        settlement = self.new_settlement(self.journal.opening)
        if self.read_group(settlement, "final") and self.read_group(settlement, "rival"):
            settlement.regret = self.lines.take("regret").fields[0]
            self.end("regret")

    def read_session(self) -> None:
        """Settlements, and the rounds of bids between them."""
        bounds = self.journal.opening
        while not self.journal.stop:
            settlement = self.new_settlement(bounds)
            (number,) = self.lines.take("settle").fields
            due = f"`settle {settlement.number}` is due here"
            self.lines.require(number == settlement.number, due)
            if self.read_settlement(settlement):
                bounds = self.read_bids(settlement)

    def new_settlement(self, bounds: list[Bounds]) -> Settlement:
        """The next settlement, at these bounds."""
        settlements = self.journal.settlements
        settlements.append(Settlement(len(settlements), bounds))
        return settlements[-1]

    # A settlement

    def read_settlement(self, settlement: Settlement) -> bool:
        """A settlement up to its bids; False where the journal ends in it."""
        if not (self.read_group(settlement, "final") and self.read_group(settlement, "rival")):
            return False
        settlement.regret = self.lines.take("regret").fields[0]
        if self.closes(settlement):
            self.read_closing(settlement)
            return False
        return self.read_group(settlement, "provisional") and self.read_pricing(settlement)

    def closes(self, settlement: Settlement) -> bool:
        """Whether a settlement closes the session, by its regret or its number."""
        settings, regret = self.journal.settings, settlement.regret
        assert regret is not None
        return regret <= settings.close_regret or settlement.number == settings.rounds

    def read_sets(self) -> list[str]:
        """One set a bidder, as bits."""
        sets = []
        for bidder in self.journal.bidders:
            sets.append(self.read_set("set", bidder))
        return sets

    def read_set(self, head: str, bidder: Bidder) -> str:
        """A set of a bidder, as bits."""
        bits: str = self.lines.take(head).fields[0]
        count, nodes = len(bits), len(bidder.nodes)
        self.lines.require(count == nodes, f"{count} bits for the {nodes} nodes of {bidder.name}")
        return bits

    def read_group(self, settlement: Settlement, head: str, bidder: int | None = None) -> bool:
        """A search; False where it was spent, which ends the journal."""
        derived = self.read_derivations()
        lines, line, fits = self.lines, self.lines.number, True
        record = lines.take(head, "spent")
        *numbers, value = record.fields
        spent, bound = record.head == "spent", None
        if spent:
            (value,), bound = numbers, value
        elif numbers:
            fits = numbers == [bidder]
        lines.require(fits, f"`without {bidder}` is due here")
        seeks = head if bidder is None else f"without {self.journal.bidders[bidder].name}"
        group = Group(seeks, value, self.read_sets(), lines.log(self.leaf), bound, derived)
        settlement.groups.append(group)
        if spent:
            self.end("spent", line, record)
        return not spent

    def read_derivations(self) -> list[Log]:
        """The derived goods that are stated before a group: the log of each."""
        lines, found = self.lines, []
        while self.journal.version == 3 and lines.word == "derive":
            lines.take("derive")
            bidders = [lines.take("amounts").fields[0]]
            while lines.word == "amounts":
                bidders.append(lines.take("amounts").fields[0])
                lines.require(bidders[-2] < bidders[-1], "the bidders of a derived good ascend")
            found.append(lines.log(self.leaf))
        return found

    def read_closing(self, settlement: Settlement) -> None:
        """The best values without each bidder, and the payments."""
        journal, lines = self.journal, self.lines
        if not all(
            self.read_group(settlement, "without", each) for each in range(len(journal.bidders))
        ):
            return
        journal.cut, journal.surplus = lines.take("threshold").fields
        for bidder in journal.bidders:
            name, *numbers = lines.take("payment").fields
            lines.require(name == bidder.name, f"the payment of {bidder.name} is due here")
            journal.payments.append(Payment(*numbers))
        self.end("closed")

    def read_pricing(self, settlement: Settlement) -> bool:
        """Prices with their certificates; False where the journal ends here."""
        lines, line = self.lines, self.lines.number
        record = lines.take("prices", "limit")
        if record.head == "limit":
            self.pass_all("pool")
            self.end("limit", line, record)
            return False
        settlement.prices = self.prices(record)
        lines.take("accuracy")
        accuracy = self.pass_all("row")
        lines.take("balance")
        settlement.rows = accuracy, self.pass_all("row")
        line = lines.number
        if lines.word in ("refused", "unread"):
            record = lines.take("refused", "unread")
            lines.require(
                record.fields[0] == settlement.number + 2,
                f"`{record.head} {settlement.number + 2}` is due here",
            )
            self.journal.stop = Stop(record.head, line, record.fields)
        elif lines.word == "end":
            self.end("open")
        return self.journal.stop is None

    def prices(self, record: Record) -> list[Fraction]:
        """The prices that a record states, one for each good."""
        denominator, numerators = record.fields
        count, goods = len(numerators), len(self.journal.goods)
        self.lines.require(count == goods, f"{count} prices of {goods} goods")
        return [Fraction(number, denominator) for number in numerators]

    def pass_all(self, head: str) -> int:
        """Passes all records of this word, and counts them."""
        count = 0
        while self.lines.word == head and not self.lines.ended:
            self.lines.take(head)
            count += 1
        return count

    def end(self, word: str, line: int | None = None, record: Record | None = None) -> None:
        """The end of the journal, which stops at an earlier line where one is given."""
        at = self.lines.number
        fits = self.lines.take("end").fields == [word]
        self.lines.require(fits, f"`end {word}` is due here")
        self.journal.stop = Stop(word, line or at, record.fields if record else [])

    # Bids

    def read_bids(self, settlement: Settlement) -> list[Bounds]:
        """The submissions of a round; gives the bounds of the next settlement."""
        lines, bounds = self.lines, list(settlement.bounds)
        numbers = {bidder.name: number for number, bidder in enumerate(self.journal.bidders)}
        unknown: set[str] = set()
        while lines.word == "submit":
            name, low, high = lines.take("submit").fields
            self.require_own(name)
            bidder = numbers.get(name)
            verdict = lines.take("verdict")
            accepted = verdict.head == "verdict accepted"
            if accepted and bidder is not None:
                nodes = len(self.journal.bidders[bidder].nodes)
                lines.require(len(low) == len(high) == nodes, f"accepted without {nodes} values")
                bounds[bidder] = low, high
            lines.require(bidder is not None or not accepted, f"accepted of nobody named {name}")
            if bidder is None:
                unknown.add(name if len(unknown) < MOST_UNKNOWN else "others")
                name = name if name in unknown else "others"
            number = verdict.head.partition(" ")[2]
            at = verdict.fields if len(settlement.bids) < MOST_KEPT else ()
            settlement.bids[Judged(bidder, number, name, *at)] += 1
            if not accepted:
                self.forget_tries()
            if bidder is not None:
                self.keep(settlement, bidder, Bid(low, high, number, *verdict.fields))
        return bounds

    def forget_tries(self) -> None:
        """Leaves out the last tries of earlier rounds."""
        for earlier in self.journal.settlements[:-1]:
            earlier.tries.clear()

    def keep(self, settlement: Settlement, bidder: int, bid: Bid) -> None:
        """Keeps a bid, if it is of the one bidder or the last try of its bidder so far."""
        if bid.verdict != "accepted":
            settlement.tries[bidder] = bid
        name = self.journal.bidders[bidder].name
        if name == self.kept and len(settlement.kept) < MOST_KEPT:
            settlement.kept.append(bid)


def read_journal(lines: Lines, kept: str | None = None) -> Journal:
    """The journal that the lines are, with the bids of one bidder; BadJournal where it is none."""
    return Reader(lines, kept).read()


__all__ = [
    "BadJournal",
    "Bid",
    "Bidder",
    "Bounds",
    "Good",
    "Group",
    "Journal",
    "Judged",
    "Lines",
    "Log",
    "Node",
    "Payment",
    "Settings",
    "Settlement",
    "Stop",
    "read_journal",
]
