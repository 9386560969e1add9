"""Prices and regret over the rounds as small lines."""
from __future__ import annotations

from fractions import Fraction

from . import numbers
from .markup import dot, drawing, tag, text
from .view import View

WIDTH, HEIGHT, EDGE = 110, 26, 4


def lines_part(view: View) -> str:
    """A small line for the regret and for the price of each good, where two can be compared."""
    settlements = view.journal.settlements
    regrets = [Fraction(each.regret) for each in settlements if each.regret is not None]
    prices = [each.prices for each in settlements if each.prices]
    entries = [entry("regret", regrets, "miss")] if len(regrets) > 1 else []
    if len(prices) > 1:
        for number, good in enumerate(view.journal.goods):
            entries.append(entry(good.name, [each[number] for each in prices]))
    if not entries:
        return ""
    caption = "Prices and regret over the rounds" if len(prices) > 1 else "Regret over the rounds"
    note = "each line begins at 0 below, and has its own height"
    return (
        tag("h3", caption)
        + tag("ul", "".join(entries), class_="courses")
        + tag("p", tag("span", note), class_="key")
    )


def entry(name: str, values: list[Fraction], look: str = "") -> str:
    """A name, its line, and the first and the last value."""
    first, last = numbers.decimal(values[0]), numbers.decimal(values[-1])
    ends = last if first == last else f"{first} → {last}"
    return tag(
        "li",
        tag("span", text(name), class_=look or None)
        + small_line(name, values, look)
        + tag("span", text(ends), class_="soft"),
    )


def small_line(name: str, values: list[Fraction], look: str = "") -> str:
    """A line through the values, the greatest of which stands at the top, with a dot at its end."""
    most = max(values) or 1
    step = Fraction(WIDTH - 2 * EDGE, max(1, len(values) - 1))
    points = [
        (EDGE + number * step, HEIGHT - EDGE - value * (HEIGHT - 2 * EDGE) / most)
        for number, value in enumerate(values)
    ]
    path = "M" + "L".join(f"{float(x):.1f} {float(y):.1f}" for x, y in points)
    body = tag("path", d=path, class_=f"course {look}".strip())
    body += dot(*points[-1], 2.5, f"end-of {look}".strip())
    title = f"{name}: {', '.join(map(numbers.decimal, values))}"
    return drawing(WIDTH, HEIGHT, body, title)
