"""The answer at a glance: the state, the regret, the surplus, and what the checker says."""
from __future__ import annotations

from fractions import Fraction
from typing import NamedTuple

from . import numbers, words
from .checker import due
from .gap import missed, regret_bounds, spent_words, stands
from .markup import box, drawing, exact, foreign, tag, text
from .trades import doesnt_add_up, trades_part
from .view import View

LIMITS = {
    "wide": "numbers of more than 128 bits",
    "pivots": "more than 2,000 pivots",
    "rows": "more than 200 rows",
    "den": "prices with a denominator above 2^32",
}

UNSEEN = (
    "; it can’t say that others were shown the same prices and cut, nor that your set and your "
    "Vickrey discount are those of the journal"
)


class Fact(NamedTuple):
    """A number at a glance: what it is, the number itself, a note, and a class of its colour."""

    name: str
    value: str
    note: str
    class_: str = ""


def outcome(view: View) -> tuple[str, str]:
    """The state in a word or two, and why, both as markup."""
    journal = view.journal
    word, awaited = journal.end.word, words.awaited(journal)
    if awaited:
        return "Open", awaited + fault_words(view)
    if word == "closed":
        return "Closed", closed_words(view)
    if word == "spent":
        return "Search spent", spent_words(view)
    if word == "limit":
        return "Pricing limit", limit_words(view)
    return {
        "assign": ("One trade", "an assignment by itself, with no proof that it is best"),
        "regret": ("One trade", "with its regret, without rounds or payments"),
    }[word]


def closed_words(view: View) -> str:
    """Why a session closed."""
    settings, regret = view.journal.settings, view.journal.last.regret or 0
    if regret <= settings.close_regret:
        return (
            f"the regret is {numbers.whole(regret)}, and this session closes at "
            f"{numbers.whole(settings.close_regret)} or less"
        )
    few = {0: "this session has no rounds", 1: "its one round was held"}
    return few.get(settings.rounds, f"all {settings.rounds} rounds were held")


def limit_words(view: View) -> str:
    """Which limit the pricing met."""
    if view.alone:
        return "the prices could not be worked out"
    stage, kind, *_ = view.journal.end.fields
    return f"the stage {stage} of the pricing needs {LIMITS[kind]}"


def fault_words(view: View) -> str:
    """What is wrong with the file of the awaited round; a bidder isn't told whose bid that is."""
    stop = view.journal.end
    if view.alone or stop.word == "open":
        return ""
    if stop.word == "unread":
        return "; the file that was given could not be read"
    _, number, place = stop.fields
    where = "" if place == "-" else f" at {text(place)}"
    return f"; the file that was given was refused, with fault {number}{where}"


def checked(view: View) -> Fact:
    """The checker's answer, and what it means for this page."""
    answer, expected, name = view.answer, due(view.journal), f"{view.judge}’s answer"
    said, wanted = f"“{foreign(answer.text)}”", f"“{expected}”"
    if not answer.text and not answer.asked:
        how = "; <code>ice check</code> judges it"
        how = "; whoever has the journal can have it checked" if view.alone else how
        how = "; <code>ice audit</code> tests it" if view.journal.of_statement else how
        return Fact(name, "not checked", f"this page retells the {view.file}{how}", "soft")
    if not answer.is_verdict():
        said = said if answer.text else f"the {view.judge} ended with status {answer.status}"
        return Fact(name, "no verdict", f"{said}: nothing is known of this {view.file}", "warn")
    if not answer.fits(view.journal):
        why = (
            f"not what this {view.file} asks for"
            if view.alone
            else f"{said}, where this journal asks for {wanted}"
        )
        return Fact(name, "no", f"{why}: don’t rely on this page", "bad")
    by = f"asked of {foreign(answer.asked)} for this page" if answer.asked else "as told to this page"
    by = by if view.alone or expected.startswith("no ") else f"{said}, {by}"
    if expected.startswith("yes "):
        more = UNSEEN * view.journal.of_statement
        return Fact(name, "yes", f"{by}: every test passed{more}", "good")
    where = "where bids are awaited" if words.awaited(view.journal) else "where it stopped"
    up_to = "" if view.alone else f"line {numbers.whole(view.journal.end.line - 1)}, "
    return Fact(name, "right so far", f"{by}: every test passed up to {up_to}{where}", "good")


def facts(view: View) -> list[Fact]:
    """The numbers at a glance."""
    journal, regret, unit = view.journal, view.journal.last.regret, view.with_unit
    at = f"kind {journal.kind}"
    if journal.kind == "session":
        held = journal.last.number
        after = f'after {numbers.plural(held, "round")}' if held else "before the first round"
        at = after if view.alone else f"settlement {held}"
    found = [Fact("state", outcome(view)[0], at)]
    if view.bidder is None:
        proven = ", proven best" if view.is_proven else ""
        found.append(
            Fact(
                "total value, at least",
                numbers.whole(view.total) + unit,
                f"at lower values{proven}",
            )
        )
    else:
        found += own_facts(view, view.bidder)
    bounds = regret_bounds(view)
    regret = bounds[1] if bounds else regret
    if journal.kind != "assign":
        share = numbers.percent(regret or 0, view.total) if regret and not view.alone else ""
        share = f", {text(share)} of the total" if share else ""
        found.append(
            Fact(
                "could be missed, at most",
                "unknown" if regret is None else numbers.whole(regret) + unit,
                f"the regret{share}",
                "miss" if regret else "",
            )
        )
    if gap := missed(view):
        found.append(Fact("gap of the search", *gap))
    if journal.payments:
        note = "what all pay together" if view.alone else "the total less the discounts"
        found.append(Fact("surplus of the payments", exact(journal.surplus) + unit, note))
    return [*found, checked(view)]


def own_facts(view: View, bidder: int) -> list[Fact]:
    """The numbers of one bidder; while bids are awaited nothing is settled."""
    if words.awaited(view.journal):
        return []
    proven = ", in a trade proven best" if view.is_proven else ""
    found = [
        Fact(
            "your trade is worth, at least",
            numbers.whole(view.worths[bidder]) + view.with_unit,
            f"at your lower values{proven}",
        )
    ]
    if view.journal.payments:
        payment = view.journal.payments[bidder].payment
        verb, note = "you pay", "that value less what you keep"
        if payment < 0:
            verb, note = "you receive", "minus that value, and what you keep"
        found.append(Fact(verb, exact(abs(payment)) + view.with_unit, note + in_coins(view, payment)))
    return found


def in_coins(view: View, payment: Fraction) -> str:
    """What a payment is in whole coins: by the largest remainder of all payments, one of two."""
    if view.unit_coins is None:
        return ""
    below, rest = divmod(payment * view.unit_coins, 1)
    ends = sorted(abs(Fraction(coins, view.unit_coins)) for coins in {below, below + (rest > 0)})
    told = " or ".join(numbers.decimal(end) + view.with_unit for end in ends)
    return f"; in whole coins {told}" + (", as all payments are rounded" if rest else "")


def lead(view: View) -> str:
    """The answer in a sentence or two."""
    journal, (state, why) = view.journal, outcome(view)
    says = f"{state}: {why}."
    if view.bidder is None:
        trading = [units for units in view.units if any(units)]
        bought = [
            sum(max(units[good], 0) for units in view.units) for good in range(len(journal.goods))
        ]
        says += (
            f' {len(trading)} of {numbers.plural(len(journal.bidders), "bidder")} trade '
            f'{numbers.plural(sum(bought), "unit")} of {sum(map(bool, bought))} of '
            f'{numbers.plural(len(journal.goods), "good")}.'
            if trading
            else " Nobody trades."
        )
    elif journal.payments:
        says += f" You get: {text(words.trade(view.units[view.bidder], journal.goods))}."
    standing = "" if view.alone else stands(view)
    says += standing
    if journal.kind == "session" and not journal.payments and not standing:
        best = "" if view.alone else ": this is the best trade found so far"
        says += f" Nothing is settled{best}."
    if not view.alone and doesnt_add_up(view):
        odds = "The sets of this journal don’t add up to what it states."
        says = tag("strong", odds, class_="bad") + " " + says
    if checked(view).value == "no":
        refused = f"The {view.judge} doesn’t accept this {view.file}."
        says = tag("strong", refused, class_="bad") + " " + says
    return tag("p", says, class_="lead")


def share_bar(view: View) -> str:
    """The total and the regret as one bar."""
    regret = view.journal.last.regret
    if not regret or view.total < 0 or view.alone:
        return ""
    width = 1000
    sure = Fraction(width * view.total, view.total + regret)
    body = box(0, 0, sure, 9, "ink") + box(sure, 0, width - sure, 9, "gap")
    title = f"{numbers.whole(view.total)} is sure, {numbers.whole(regret)} at most is missed"
    bar = drawing(width, 9, body, title, stretches=True)
    note = f"no other trade can be worth over {numbers.whole(regret)} more"
    return tag("div", bar, class_="share") + tag("p", note, class_="end")


def answer_section(view: View) -> str:
    """The top of the page."""
    entries = "".join(
        tag(
            "div",
            tag("dt", fact.name)
            + tag("dd", fact.value, class_=f"big {fact.class_}".strip())
            + tag("dd", fact.note),
        )
        for fact in facts(view)
    )
    title = foreign(view.title)
    if view.alone:
        title += tag("span", text(view.whom), class_="soft")
    made = tag("p", foreign(view.made), class_="soft") if view.made else ""
    return (
        tag("h1", title)
        + made
        + lead(view)
        + tag("dl", entries, class_="facts")
        + share_bar(view)
        + trades_part(view)
    )
