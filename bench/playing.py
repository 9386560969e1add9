"""Rounds of a market, played by a stated rule with bidders whose true values are known."""
from __future__ import annotations

import argparse
import io
import json
import subprocess
import sys
import tempfile
from dataclasses import dataclass, field
from fractions import Fraction
from pathlib import Path
from typing import Any, Callable, Iterator, NamedTuple

TOP = Path(__file__).resolve().parent.parent
sys.path[:0] = [str(TOP / "page"), str(TOP / "sheet")]

from ice_page.checker import worths  # noqa: E402
from ice_page.journal import Bounds, Journal, read_journal  # noqa: E402
from ice_page.lines import BadJournal  # noqa: E402
from ice_page.tables import ACCEPTED, Noting, told_by  # noqa: E402
from ice_sheet import jsontext  # noqa: E402
from ice_sheet.ending import Words  # noqa: E402
from ice_sheet.faults import BadFile  # noqa: E402
from ice_sheet.files import parts  # noqa: E402
from ice_sheet.settings import LIMITS, settings_of  # noqa: E402

DONE, BAD_WORDS, REFUSED, UNREAD, UNWRITTEN = 0, 1, 2, 6, 7
OPEN = 9
KEEPS = "17/20,7/10,1/2,1/4,1/10,0"
HEADS = ["setting", "end", "rounds", "bids", "refused", "welfare"]
HEADS += ["threshold", "vcg", "vcg lacks", "as bid", "regrets"]
ABOUT = """\
Plays the rounds of a market, and prints a line for the market as it is and one for each value of
a setting that is varied. TRUTHS is a round file in which each bidder has its true values as both
bounds.

The rule: in each round every bidder bids, in the order of the market. It keeps a part of the
distance from each bound to the true value, the first part of --keep; where the bid is refused it
tries again behind the others with the next part, and at last with 0, its exact values. Distances
are rounded down, so all bounds are whole and hold the true values. With --proxies the program
plays by its own rule, `simulate`: each bidder halves its distances as often as the activity rules
ask, and tells no more. These are two rules of many, and what they show of a setting is an example
and no law.

Columns: how the session ended, its rounds, its bids and how many were refused; the trade's welfare
at the true values; what all who are paid get, by the Threshold payments of the journal, by VCG
payments (each keeps its whole Vickrey discount; what the market would lack stands beside), and
where each pays its lower value; the regret of each settlement."""
STATUSES = (
    "status: 0 the table is written, 1 the words are wrong, 2 a file is refused, 6 one could not "
    "be read, 7 the table could not be written"
)

Json = dict[str, Any]
Runner = Callable[[Path, list[Path]], tuple[int, bytes]]


class Unplayable(Exception):
    """The market can't be played: the text says why."""


class Bid(NamedTuple):
    """A bid that is to come: the bidder's number, and the place of the part that it keeps."""

    bidder: int
    turn: int


class Receipts(NamedTuple):
    """What all who are paid get, by three rules, and what the market lacks by VCG payments."""

    threshold: Fraction
    vcg: Fraction
    lacks: Fraction
    as_bid: Fraction


@dataclass
class Played:
    """How a session went: its last journal, and the verdicts of all bids in their order."""

    journal: Journal
    verdicts: list[str] = field(default_factory=list)
    rounds: int = 0

    @property
    def refused(self) -> int:
        """How many bids were refused."""
        return sum(verdict != ACCEPTED for verdict in self.verdicts)


class Market:
    """A market, the true values of its bidders, and the parts that they keep in turn."""

    def __init__(self, exchange: Json, truths: dict[str, list[int]], keeps: list[Fraction]) -> None:
        self.exchange, self.truths, self.keeps = exchange, truths, keeps

    def changed(self, setting: str, value: int) -> Market:
        """The same market with another value of a setting."""
        settings = {**self.exchange["settings"], setting: value}
        return Market({**self.exchange, "settings": settings}, self.truths, self.keeps)

    def check(self, journal: Journal) -> None:
        """Unplayable where the true values don't lie within the first bounds, node by node."""
        for bidder, (low, high) in zip(journal.bidders, journal.opening):
            truth = self.truths.get(bidder.name)
            if truth is None:
                raise Unplayable(f"the truths have no bid of {bidder.name}")
            if len(truth) != len(low):
                raise Unplayable(f"{len(truth)} truths for the {len(low)} nodes of {bidder.name}")
            for node, (least, value, most) in enumerate(zip(low, truth, high)):
                if not least <= value <= most:
                    words = f"{value} isn't within {least} to {most}"
                    raise Unplayable(f"the truth of {bidder.name} at node {node}: {words}")

    def bid(self, name: str, bounds: Bounds, turn: int) -> Json:
        """The bid of a bidder that has these bounds, in its turn."""
        low, high = tightened(bounds, self.truths[name], self.keeps[turn])
        return {"bidder": name, "lo": low, "hi": high}


def tightened(bounds: Bounds, truth: list[int], keep: Fraction) -> Bounds:
    """The bounds that keep this part of their distance from the true values, rounded down."""
    low = [value - (value - bound) * keep // 1 for bound, value in zip(bounds[0], truth)]
    high = [value + (bound - value) * keep // 1 for bound, value in zip(bounds[1], truth)]
    return list(map(int, low)), list(map(int, high))


class Player:
    """Plays a market's rounds, with its files in a folder."""

    def __init__(self, market: Market, run: Runner, folder: Path) -> None:
        self.market, self.run, self.folder = market, run, folder
        self.file = folder / "market.json"
        self.file.write_text(json.dumps(market.exchange))
        self.rounds: list[Path] = []

    def session(self) -> tuple[int, Journal, list[list[str]]]:
        """The status of the session so far, its journal, and the verdicts of each round."""
        status, data = self.run(self.file, self.rounds)
        if data.startswith((b"refused ", b"unread ", b"words refused")):
            raise Unplayable(f"the program says: {data.decode(errors='replace').strip()}")
        try:
            lines = Noting(io.BytesIO(data))
            journal = read_journal(lines)
        except BadJournal as fault:
            words = f"the program wrote no journal, with status {status}: {fault}"
            raise Unplayable(words) from None
        if journal.end.word in ("refused", "unread"):
            raise Unplayable(f"the program says: {data.splitlines()[-1].decode()}")
        verdicts = [[bid.verdict for bid in bids] for bids in told_by(lines.noted).bids]
        return status, journal, verdicts

    def play(self) -> Played:
        """Plays until the session closes or stops."""
        status, journal, _ = self.session()
        self.market.check(journal)
        played = Played(journal)
        while status == OPEN:
            status, played.journal, verdicts = self.round(played.journal)
            played.verdicts += verdicts
            played.rounds += 1
        return played

    def round(self, journal: Journal) -> tuple[int, Journal, list[str]]:
        """Plays a round on an open session: the status then, the journal, and the verdicts."""
        bounds = journal.last.bounds
        self.rounds.append(self.folder / f"round-{len(self.rounds) + 1}.json")
        bids: list[Json] = []
        waiting = [Bid(bidder, 0) for bidder in range(len(journal.bidders))]
        while True:
            for bidder, turn in waiting:
                bids.append(self.market.bid(journal.bidders[bidder].name, bounds[bidder], turn))
            self.rounds[-1].write_text(json.dumps({"bids": bids}))
            status, now, verdicts = self.session()
            judged = verdicts[len(self.rounds) - 1]
            waiting = self.next_tries(waiting, judged[len(bids) - len(waiting) :])
            if not waiting:
                return status, now, judged

    def next_tries(self, tried: list[Bid], verdicts: list[str]) -> list[Bid]:
        """Who was refused and has another part to try."""
        return [
            Bid(bid.bidder, bid.turn + 1)
            for bid, verdict in zip(tried, verdicts)
            if verdict != ACCEPTED and bid.turn + 1 < len(self.market.keeps)
        ]


class Simulator(Player):
    """Has the program play a market's rounds, with a proxy for each bidder."""

    def play(self) -> Played:
        """Plays until the session closes or stops."""
        truths = self.folder / "truths.json"
        bids = [{"bidder": name, "lo": own, "hi": own} for name, own in self.market.truths.items()]
        truths.write_text(json.dumps({"bids": bids}))
        self.rounds = [truths]
        _, journal, verdicts = self.session()
        judged = [verdict for each in verdicts for verdict in each]
        return Played(journal, judged, sum(map(bool, verdicts)))


def received(payments: list[Fraction]) -> Fraction:
    """What all who are paid get."""
    return -sum((each for each in payments if each < 0), Fraction(0))


def receipts(journal: Journal) -> Receipts | None:
    """What is paid out by each rule; None where the session didn't close."""
    if journal.end.word != "closed":
        return None
    as_bid = list(map(Fraction, worths(journal)))
    vcg = [worth - paid.vickrey for worth, paid in zip(as_bid, journal.payments)]
    threshold = [paid.payment for paid in journal.payments]
    lacks = max(-sum(vcg, Fraction(0)), Fraction(0))
    return Receipts(received(threshold), received(vcg), lacks, received(as_bid))


def welfare(journal: Journal, truths: dict[str, list[int]]) -> int:
    """What the journal's trade is worth at the true values."""
    pairs = zip(journal.bidders, journal.shown.sets)
    return sum(
        value
        for bidder, bits in pairs
        for value, bit in zip(truths[bidder.name], bits)
        if bit == "1"
    )


def cells(name: str, played: Played, truths: dict[str, list[int]]) -> list[str]:
    """The line of a session."""
    journal = played.journal
    paid = receipts(journal)
    regrets = [str(each.regret) for each in journal.settlements if each.regret is not None]
    numbers = [played.rounds, len(played.verdicts), played.refused, welfare(journal, truths)]
    sums = map(str, paid) if paid else ["-"] * 4
    return [name, journal.end.word, *map(str, numbers), *sums, " ".join(regrets)]


def laid_out(rows: list[list[str]]) -> Iterator[str]:
    """The lines of a table: the first and the last column to the left, the others to the right."""
    widths = [max(map(len, column)) for column in zip(*rows)]
    for first, *middle, last in rows:
        inner = [cell.rjust(width) for cell, width in zip(middle, widths[1:])]
        yield "  ".join([first.ljust(widths[0]), *inner, last]).rstrip()


def best_at_truths(market: Market, run: Runner, folder: Path) -> int | None:
    """The greatest welfare at the true values: the total of a session with exact bounds.

    None where its branches don't suffice.
    """
    exchange = json.loads(json.dumps(market.exchange))
    exchange["settings"]["rounds"] = 0
    for bidder in exchange["bidders"]:
        values = iter(market.truths[bidder["name"]])
        for node in nodes(bidder["tree"]):
            node["lo"] = node["hi"] = next(values)
    _, journal, _ = Player(Market(exchange, market.truths, market.keeps), run, folder).session()
    return welfare(journal, market.truths) if journal.end.word == "closed" else None


def nodes(tree: Json) -> Iterator[Json]:
    """The nodes of a tree, from the top down and from left to right."""
    yield tree
    for child in tree.get("of", ()):
        yield from nodes(child)


# The command


def read_exchange(file: str) -> Json:
    """The exchange in a file; what the program says of it comes later."""
    value = jsontext.members(jsontext.read(file), ("settings", "goods", "bidders"), file)
    settings_of(value["settings"], f"{file}: settings")
    if any(isinstance(part, jsontext.NotWhole) for part in parts(value)):
        raise BadFile(f"{file}: it has a number that isn't whole")
    return value


def read_truths(file: str) -> dict[str, list[int]]:
    """The true values in a round file, by bidder; BadFile where they aren't exact."""
    value = jsontext.members(jsontext.read(file), ("bids",), file)
    if not isinstance(value["bids"], list):
        raise BadFile(f"{file}: `bids` is no array")
    truths = {}
    for number, bid in enumerate(value["bids"]):
        place = f"{file}: bids.{number}"
        jsontext.members(bid, ("bidder", "lo", "hi"), place)
        if not isinstance(bid["bidder"], str) or not isinstance(bid["lo"], list):
            raise BadFile(f"{place}: `bidder` is a name and `lo` an array")
        if bid["lo"] != bid["hi"]:
            raise BadFile(f"{place}: true values are the same in `lo` and in `hi`")
        for node, truth in enumerate(bid["lo"]):
            jsontext.number(truth, -(10**9), 10**9, f"{place}.lo.{node}")
        truths[bid["bidder"]] = bid["lo"]
    return truths


def keeps_of(word: str) -> list[Fraction]:
    """The parts that are kept, from 0 to 1, with 0 as the last one."""
    try:
        keeps = [Fraction(part) for part in word.split(",")]
    except (ValueError, ZeroDivisionError):
        keeps = []
    if not keeps or keeps[-1] or not all(0 <= keep <= 1 for keep in keeps):
        raise argparse.ArgumentTypeError("parts from 0 to 1 are due, with 0 as the last: 1,1/2,0")
    return keeps


def varied(word: str) -> list[tuple[str, int]]:
    """A setting and its values, as in `improve=0,50,200`."""
    name, _, values = word.partition("=")
    low, high = LIMITS[name] if name in LIMITS else (1, 0)
    try:
        numbers = [int(value) for value in values.split(",")]
    except ValueError:
        numbers = []
    if not numbers or not all(low <= number <= high for number in numbers):
        within = f"values of {name} are {low} to {high}: {name}={low},{high}"
        names = f"the settings are {', '.join(LIMITS)}: improve=0,50"
        raise argparse.ArgumentTypeError(within if name in LIMITS else names)
    return [(name, number) for number in numbers]


def words() -> Words:
    """The words that are understood."""
    parser = Words(
        prog="play",
        epilog=STATUSES,
        allow_abbrev=False,
        description=ABOUT,
        formatter_class=argparse.RawDescriptionHelpFormatter,
    )
    parser.add_argument("market", metavar="MARKET", help="an exchange in JSON")
    parser.add_argument("truths", metavar="TRUTHS", help="a round file with the true values")
    parser.add_argument(
        "--vary",
        metavar="SETTING=V,V",
        type=varied,
        nargs="+",
        action="extend",
        default=[],
        help="a setting and values that it takes in turn, the others as in the market",
    )
    parser.add_argument(
        "--keep", metavar="PART,..", type=keeps_of, default=KEEPS, help=f"the parts, if not {KEEPS}"
    )
    parser.add_argument("--proxies", action="store_true", help="the program plays, by `simulate`")
    parser.add_argument("--program", metavar="FILE", default=TOP / "ice", help="if not ./ice")
    return parser


def runner(program: str | Path, command: str = "run") -> Runner:
    """Runs sessions by a command of a program."""

    def run(market: Path, rounds: list[Path]) -> tuple[int, bytes]:
        words = [program, command, market, *rounds]
        ran = subprocess.run(words, stdout=subprocess.PIPE, check=False)
        return ran.returncode, ran.stdout

    return run


def table(
    market: Market, vary: list[tuple[str, int]], run: Runner, simulate: Runner | None = None
) -> Iterator[str]:
    """Plays the market as it is, and with each value that is varied; gives the lines.

    Proxies play where there is something that simulates.
    """
    markets = {"as it is": market}
    markets |= {f"{name} {value}": market.changed(name, value) for name, value in vary}
    rows = [HEADS]
    with tempfile.TemporaryDirectory() as made:
        for number, (name, one) in enumerate(markets.items()):
            folder = Path(made, str(number))
            folder.mkdir()
            player = Simulator(one, simulate, folder) if simulate else Player(one, run, folder)
            rows.append(cells(name, player.play(), market.truths))
        best = best_at_truths(market, run, Path(made))
    yield f"greatest welfare at the true values: {'not found' if best is None else best}"
    yield from laid_out(rows)


def main(arguments: list[str] | None = None, run: Runner | None = None) -> int:
    """Prints the table, and answers the status."""
    options = words().parse_intermixed_args(arguments)
    try:
        market = Market(
            read_exchange(options.market),
            read_truths(options.truths),
            options.keep if isinstance(options.keep, list) else keeps_of(options.keep),
        )
        vary = [pair for pairs in options.vary for pair in pairs]
        simulate = runner(options.program, "simulate") if options.proxies else None
        lines = list(table(market, vary, run or runner(options.program), simulate))
    except (BadFile, Unplayable) as fault:
        print(f"play: {fault}", file=sys.stderr)
        return REFUSED
    except OSError as fault:
        print(f"play: {fault.filename}: {fault.strerror}", file=sys.stderr)
        return UNREAD
    try:
        print("\n".join(lines), flush=True)
    except OSError:
        return UNWRITTEN
    return DONE
