"""Each bidder's tree, with its intervals, the set that trades, what it pays and why."""
from __future__ import annotations

import textwrap
from fractions import Fraction
from itertools import accumulate
from typing import NamedTuple

from . import numbers, words
from .journal import Node
from .markup import box, dot, exact, frame, key, label, line, slice_of, tag, text
from .plain import isolated_lines
from .view import View

INDENT, ROW, LINE, MIDDLE = 16, 6, 14, 11
SLICE, LEAST_SCALE = 560, 0.8
LETTER = 7.0
INTERVAL = 150
LEAST_LEFT = 170
BROAD = 600
STEP = 10
WRAP = 44
MOST_ODD = 6


class Line(NamedTuple):
    """A row of a tree: its node, its words in lines, and the numbers of the leaves taken in."""

    node: Node
    words: list[str]
    note: str


def choice(node: Node) -> str:
    """The words of a choose node."""
    count, least, most = len(node.children), node.first, node.second
    if least == count:
        return f"all {count}"
    if least == most:
        return f"exactly {least} of {count}"
    if least and most < count:
        return f"{least} to {most} of {count}"
    if least:
        return f"at least {least} of {count}"
    return f"at most {most} of {count}" if most < count else f"any of {count}"


class TreeDrawing:
    """The tree of one bidder: nodes in preorder, one below the other, each with its interval."""

    def __init__(self, view: View, number: int) -> None:
        self.goods, self.bidder = view.journal.goods, view.journal.bidders[number]
        self.nodes, self.bits = self.bidder.nodes, view.journal.shown.sets[number]
        self.low0, self.high0 = view.journal.opening[number]
        self.low, self.high = view.journal.last.bounds[number]
        values = zip(self.low0, self.high0, self.low, self.high)
        self.idle = [not any(each) for each in values]
        self.lines = self.all_lines()
        self.spans = list(map(words.interval, self.low, self.high))
        valued = [item for item in self.lines if not self.idle[item.node.number]]
        self.is_told = len(valued) == 1
        if self.is_told:
            number = valued[0].node.number
            self.spans[number] = self.stated(valued[0], self.low[number], self.high[number])
        self.left = max([LEAST_LEFT, *map(self.extent, self.lines)])
        self.width = self.left + INTERVAL + 14 + LETTER * max(map(len, self.spans))
        lowest = min(0, *self.low0)
        self.scale = Fraction(INTERVAL, max(1, max(0, *self.high0) - lowest))
        self.zero = Fraction(self.left) - lowest * self.scale
        self.tops = list(
            accumulate((ROW + LINE * len(item.words) for item in self.lines), initial=0)
        )
        self.places = {item.node.number: place for place, item in enumerate(self.lines)}

    def extent(self, item: Line) -> float:
        """How far the words of a row reach."""
        longest = max(map(len, [*item.words[:-1], item.words[-1] + item.note]))
        return item.node.depth * INDENT + 14 + LETTER * longest

    def leaf(self, node: Node) -> str:
        """The words of a leaf's units."""
        units = f"{numbers.whole(node.second)} " if node.second > 1 else ""
        return units + self.goods[node.first].name

    def bundle(self, node: Node) -> str:
        """The words of a node of which all children are leaves worth nothing by themselves."""
        children = [self.nodes[child] for child in node.children]
        if not children or node.first != len(children):
            return ""
        if any(child.kind == "choose" or not self.idle[child.number] for child in children):
            return ""
        sides = [
            (side, [self.leaf(child) for child in children if child.kind == side])
            for side in ("buy", "sell")
        ]
        return "; ".join(f'{side} {" + ".join(goods)}' for side, goods in sides if goods)

    def all_lines(self) -> list[Line]:
        """The rows of the tree: one for each node, or for a bundle with its leaves."""
        found, skip = [], 0
        for node in self.nodes:
            if node.number < skip:
                continue
            words = self.bundle(node)
            if words:
                first, last = node.children[0], node.children[-1]
                note = f" ({first})" if first == last else f" ({first}–{last})"
                skip = last + 1
                lines = textwrap.wrap(words, WRAP, break_on_hyphens=False)
                found.append(Line(node, isolated_lines(lines), note))
            else:
                plain = choice(node) if node.kind == "choose" else f"{node.kind} {self.leaf(node)}"
                found.append(Line(node, [plain], ""))
        return found

    def side(self, item: Line) -> str:
        """Whether a row only sells or only buys, and its value stands alone: no node above has one.

        Gives nothing where that isn't so.
        """
        inside = item.node.children if item.note else [item.node.number]
        kinds = {self.nodes[number].kind for number in inside}
        up = item.node.up
        while up is not None and self.idle[up]:
            up = self.nodes[up].up
        if up is not None or len(kinds) > 1 or "choose" in kinds:
            return ""
        return kinds.pop()

    def stated(self, item: Line, low: int, high: int) -> str:
        """An interval of a row: in words where its value stands alone, and else as numbers."""
        side = self.side(item)
        return words.stake(side, low, high) if side else words.interval(low, high)

    def whole(self) -> str:
        """The drawing, in slices that fit on a sheet of paper."""
        slices: list[list[int]] = []
        for place in range(len(self.lines)):
            if not slices or self.tops[place + 1] - self.tops[slices[-1][0]] > SLICE:
                slices.append([])
            slices[-1].append(place)
        title = f"tree of {self.bidder.name}"
        return frame("".join(self.slice(rows, title) for rows in slices), "tree", title)

    def slice(self, rows: list[int], title: str) -> str:
        """Some rows of the tree, with the links that come into them or pass by."""
        top, bottom = self.tops[rows[0]], self.tops[rows[-1] + 1]
        back = "".join(map(self.background, rows)) + line(self.zero, top, self.zero, bottom - 4)
        links = "".join(
            self.link(place)
            for place in range(rows[0], len(self.lines))
            if self.parent_height(place) < bottom
        )
        body = "".join(self.node(place) + self.interval(place) for place in rows)
        more = ", continued" if rows[0] else ""
        return slice_of(
            round(self.width),
            top,
            bottom - top,
            back + links + body,
            title + more,
            round(LEAST_SCALE * self.width),
        )

    def height(self, place: int) -> int:
        """Where the first line of a row stands."""
        return self.tops[place] + MIDDLE

    def parent_height(self, place: int) -> int:
        """Where the row of a row's parent stands; for the root, its own."""
        up = self.lines[place].node.up
        return self.height(place if up is None else self.places[up])

    def look(self, place: int) -> str:
        """The class of what is in the set that trades."""
        return " in" if self.bits[self.lines[place].node.number] == "1" else ""

    def background(self, place: int) -> str:
        """The band behind a row that is in the set."""
        item = self.lines[place]
        if not self.look(place):
            return ""
        x, y = INDENT * item.node.depth + 3, self.height(place)
        return box(x, y - 9, self.width - x, 4 + LINE * len(item.words), "on")

    def link(self, place: int) -> str:
        """The line from a row's parent to it."""
        node, y = self.lines[place].node, self.height(place)
        if node.up is None:
            return ""
        x = INDENT * node.depth - 6
        path = f"M{x - INDENT} {self.parent_height(place) + 8}V{y}H{x - 8}"
        return tag("path", d=path, class_=f"link{self.look(place)}")

    def node(self, place: int) -> str:
        """The disc and the words of a row."""
        item, look, y = self.lines[place], self.look(place), self.height(place)
        node, x = item.node, INDENT * item.node.depth - 6
        side = self.nodes[node.children[0]].kind if item.note else node.kind
        body = dot(x, y, 8, f"node {side}{look}")
        body += label(x, y + 3.2, str(node.number), f"id{look}", "middle")
        for number, said in enumerate(item.words):
            last = number == len(item.words) - 1
            note = tag("tspan", item.note, class_="soft") if item.note and last else ""
            style = "strong" if look else "soft"
            body += label(x + LINE, y + 4 + LINE * number, text(said) + note, style)
        return body

    def interval(self, place: int) -> str:
        """The opening and the present interval of a node that isn't worth 0 throughout."""
        number, look, y = self.lines[place].node.number, self.look(place), self.height(place)
        if self.idle[number]:
            return ""
        low, high, low0, high0 = (
            self.zero + values[number] * self.scale
            for values in (self.low, self.high, self.low0, self.high0)
        )
        thin = max(Fraction(0), 3 - high + low) / 2
        style = "strong" if look else "soft"
        return (
            line(low0, y, high0, y, "was")
            + line(low - thin, y, high + thin, y, f"now{look}")
            + label(self.width - 3, y + 4, self.spans[number], style, "end")
        )


def reason(view: View, number: int) -> str:
    """Why a bidder pays what it pays."""
    payment, cut = view.journal.payments[number], view.journal.cut
    added, total = numbers.whole(payment.vickrey), numbers.whole(view.total)
    whose, whom, ending = ("Your", "You", "") if view.alone else ("Its", "It", "s")
    says = f"{whose} final set is worth {numbers.whole(view.worths[number])} at lower values. "
    if not payment.vickrey:
        how = " (your Vickrey discount is 0)" if view.alone else ""
        says += f"{whom} add{ending} nothing to the total{how}, "
        return tag("p", f"{says}so {whom.lower()} keep{ending} nothing.", class_="soft")
    without = numbers.whole(view.total - payment.vickrey)
    how = f" (without it {without} of {total} can be reached)"
    how = " (your Vickrey discount)" if view.alone else how
    says += (
        f"{whom} add{ending} {added} to the total{how}; the cut is {exact(cut)}, so "
        f"{whom.lower()} keep{ending} {exact(payment.discount)}"
    )
    return tag("p", f"{says}.", class_="soft")


def provisional(view: View, number: int) -> str:
    """The set that a bidder would get, where the session waits for bids."""
    group = view.journal.last.group("provisional")
    if group is None or view.alone:
        return ""
    bits = group.sets[number]
    units = view.journal.bidders[number].units(bits, len(view.journal.goods))
    trade = text(words.trade(units, view.journal.goods))
    says = f"Its provisional set, by which bids are judged: {trade} ({words.places(bits)})."
    return tag("p", says, class_="soft")


def gets(view: View, number: int) -> str:
    """What a bidder gets and pays, in a line."""
    trade = text(words.trade(view.units[number], view.journal.goods))
    if not view.journal.payments:
        whose = "Your" if view.alone else "Its"
        where = f"{whose} final set, if the session closed now, by lower values alone: "
        return (where if view.alone or words.awaited(view.journal) else "") + trade
    payment = view.journal.payments[number].payment
    verb = "receive" if payment < 0 else "pay"
    verb = f"you {verb}" if view.alone else f"{verb}s"
    return f"{trade}; {verb} <b>{exact(abs(payment))}</b>"


def shortened(opening: str, now: str) -> str:
    """The words of an opening interval without those that stand before the present one."""
    for begins in (words.WANTS, words.PAYS):
        if opening.startswith(begins) and now.startswith(begins):
            return opening.removeprefix(begins)
    return opening


def against_the_sign(drawing: TreeDrawing) -> str:
    """Sales above 0 and purchases below 0, in words, where the drawing has numbers alone."""
    found = []
    for item in drawing.lines:
        number, side = item.node.number, drawing.side(item)
        low, high = drawing.low[number], drawing.high[number]
        if side and not drawing.is_told and (high > 0 if side == "sell" else low < 0):
            found.append(f'“{" ".join(item.words)}” (node {number}) {words.stake(side, low, high)}')
    if len(found) > MOST_ODD:
        found[MOST_ODD:] = [f"{numbers.whole(len(found) - MOST_ODD)} more"]
    says = f"Against the usual sign: {words.listed(found)}." if found else ""
    return tag("p", text(says), class_="wider soft") if says else ""


def outline(drawing: TreeDrawing) -> str:
    """The tree as lines of words, for narrow screens."""
    rows = []
    for place, item in enumerate(drawing.lines):
        number, taken = item.node.number, bool(drawing.look(place))
        opening = drawing.stated(item, drawing.low0[number], drawing.high0[number])
        now = drawing.stated(item, drawing.low[number], drawing.high[number])
        value = "" if drawing.idle[number] else f": {now}"
        was = f" (opening: {shortened(opening, now)})" if value and opening != now else ""
        node = f'{"●" if taken else "○"} {number} {" ".join(item.words)}{item.note}{value}'
        body = text(node) + (tag("span", was, class_="soft") if was else "")
        style = f"padding-left:{6 + STEP * item.node.depth}px"
        rows.append(tag("div", body, class_="strong" if taken else "soft", style=style))
    return tag("div", "".join(rows), class_="outline narrow")


def card(view: View, number: int) -> str:
    """One bidder: its trade, its payment and its tree."""
    bidder, why = view.journal.bidders[number], provisional(view, number)
    if view.journal.payments and (view.alone or "1" in view.journal.shown.sets[number]):
        why = reason(view, number)
    drawing = TreeDrawing(view, number)
    parts = [
        tag("h3", text(bidder.name)),
        tag("div", gets(view, number)),
        why,
        against_the_sign(drawing),
        tag("div", drawing.whole(), class_="wider"),
        outline(drawing),
    ]
    look = "broad" if drawing.width > BROAD else None
    anchor = None if view.alone else f"bidder-{number}"
    return tag("article", "".join(parts), id=anchor, class_=look)


def trees_section(view: View) -> str:
    """The cards of all bidders that are shown."""
    cards = "".join(card(view, number) for number in view.bidders)
    return (
        tag("h2", "Your tree" if view.alone else "Each bidder")
        + key(
            "a node has its number, and is filled where it trades",
            "a bundle takes one row, its leaves’ numbers in brackets",
            "sales have negative values, where no words say what they want",
            *(
                tag("span", part, class_="wider")
                for part in (
                    "thin line: opening interval of the value",
                    "bar: what is left of it",
                    "upright line: 0",
                )
            ),
        )
        + tag("div", cards, class_="cards single" if view.alone else "cards")
    )
