"""Elements of HTML and SVG as text.

Arguments called `body` are markup; every attribute is escaped, and words become markup by `text`.
"""
from __future__ import annotations

import html
from fractions import Fraction
from typing import Iterable

from . import numbers
from .plain import plain, plain_around

Attribute = str | int | float | Fraction | None


def text(words: object) -> str:
    """Words as markup; what isn't printable in them is spelled out, but isolates of names stay."""
    return html.escape(plain_around(str(words)))


def foreign(words: str) -> str:
    """Words that somebody else chose, as markup; letters from right to left turn nothing beside."""
    return tag("bdi", html.escape(plain(words)))


def spelled(value: Attribute) -> str:
    """The value of an attribute; lengths that aren't whole have one decimal place."""
    return f"{float(value):.1f}" if isinstance(value, (float, Fraction)) else text(value)


def tag(name: str, body: str = "", **attributes: Attribute) -> str:
    """An element; `class_` is class, `_` is a hyphen, and an attribute that is None is left out."""
    words = [
        f' {key.rstrip("_").replace("_", "-")}="{spelled(value)}"'
        for key, value in attributes.items()
        if value is not None
    ]
    return f'<{name}{"".join(words)}>{body}</{name}>'


def to_bidder(number: int, name: str) -> str:
    """A bidder's name, which leads to its tree on the page."""
    return tag("a", text(name), href=f"#bidder-{number}")


def exact(number: Fraction | int) -> str:
    """A number as a decimal, with its exact value where that is a fraction."""
    fraction = numbers.ratio(number)
    return numbers.decimal(number) + (
        f' {tag("span", f"({fraction})", class_="exact")}' if fraction else ""
    )


def amounts(number: Fraction | int) -> str:
    """A number as a decimal, and its exact value below it where that is rounded."""
    decimal = numbers.decimal(number)
    is_rounded = decimal.startswith(numbers.ABOUT)
    return decimal + (tag("div", numbers.ratio(number), class_="exact") if is_rounded else "")


def key(*parts: str) -> str:
    """A legend: the parts that aren't empty, side by side."""
    spans = " ".join(tag("span", part) for part in parts if part)
    return tag("p", spans, class_="key") if spans else ""


# Tables


def cell(body: object, class_: str | None = None) -> str:
    """A cell of numbers or words; `body` is markup."""
    return tag("td", str(body), class_=class_)


def row_head(body: str, class_: str | None = None) -> str:
    """The head of a row."""
    return tag("th", body, scope="row", class_=class_)


def column_head(body: str, class_: str | None = None, span: int | None = None) -> str:
    """The head of a column; an empty one is a cell, since it heads nothing."""
    if not body:
        return cell("", class_)
    return tag("th", body, scope="col", class_=class_, colspan=span)


def row(*cells: str, class_: str | None = None) -> str:
    """A row of cells."""
    return tag("tr", "".join(cells), class_=class_)


def table(
    caption: str,
    head: str,
    rows: Iterable[str],
    foot: str = "",
    class_: str | None = None,
    shown: str = "",
) -> str:
    """A table in a frame that scrolls by itself; its caption is for readers of screens.

    `shown` is `narrow` or `wider` where only such screens show it.
    """
    parts = [
        tag("caption", text(caption), class_="unseen"),
        tag("thead", head),
        tag("tbody", "".join(rows)),
        tag("tfoot", foot) if foot else "",
    ]
    return frame(tag("table", "".join(parts), class_=class_), f"wide {shown}".strip(), caption)


# Drawings


def drawing(width: float, height: float, body: str, title: str, stretches: bool = False) -> str:
    """A drawing, of which its title is read out; one that stretches may be shown in any width."""
    return tag(
        "svg",
        tag("title", text(title)) + body,
        viewBox=f"0 0 {width:g} {height:g}",
        width=width,
        height=height,
        role="img",
        aria_label=title,
        preserveAspectRatio="none" if stretches else None,
    )


def slice_of(width: int, top: float, height: float, body: str, title: str, least: int) -> str:
    """A slice of a tall drawing, of which its words are read out, with its least width."""
    return tag(
        "svg",
        tag("title", text(title)) + body,
        viewBox=f"0 {top:g} {width} {height:g}",
        width=width,
        height=height,
        role="group",
        aria_label=title,
        style=f"min-width:{least}px",
    )


def frame(body: str, class_: str, title: str) -> str:
    """A frame that scrolls by itself where its content is too wide."""
    return tag("div", body, class_=class_, role="region", aria_label=title, tabindex=0)


def line(x1: Attribute, y1: Attribute, x2: Attribute, y2: Attribute, class_: str = "rule") -> str:
    """A straight line."""
    return tag("line", x1=x1, y1=y1, x2=x2, y2=y2, class_=class_)


def box(x: Attribute, y: Attribute, width: Attribute, height: Attribute, class_: str) -> str:
    """A filled rectangle."""
    return tag("rect", x=x, y=y, width=width, height=height, class_=class_)


def dot(x: Attribute, y: Attribute, radius: float = 2.5, class_: str = "ink") -> str:
    """A disc."""
    return tag("circle", cx=x, cy=y, r=radius, class_=class_)


def label(
    x: Attribute, y: Attribute, body: str, class_: str | None = None, anchor: str | None = None
) -> str:
    """Words in a drawing; `body` is markup."""
    return tag("text", body, x=x, y=y, class_=class_, text_anchor=anchor)
