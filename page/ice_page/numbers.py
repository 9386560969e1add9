"""Numbers as they are read by people."""
from __future__ import annotations

from fractions import Fraction

MOST_PLACES = 3
ABOUT = "≈"


def whole(number: int) -> str:
    """A whole number, its digits in groups of three, with a true minus sign."""
    return f"{number:,}".replace("-", "−")


def unless_zero(number: int) -> str:
    """A whole number, and nothing for 0."""
    return whole(number) if number else ""


def signed(number: int) -> str:
    """A whole number with its sign, and nothing for 0."""
    return "+" * (number > 0) + unless_zero(number)


def plural(number: int, one: str) -> str:
    """A count of things, such as `3 bidders`."""
    ending = "" if number == 1 else "es" if one.endswith("ch") else "s"
    return f"{whole(number)} {one}{ending}"


def places(numbers: list[Fraction]) -> int:
    """How many decimal places show all of these exactly; three at most."""

    def needed(number: Fraction) -> int:
        exact = (count for count in range(MOST_PLACES) if number * 10**count % 1 == 0)
        return next(exact, MOST_PLACES)

    return max(map(needed, numbers), default=0)


def decimal(number: Fraction | int, count: int | None = None) -> str:
    """A number to so many places, or as many as it needs; ≈ stands where it is rounded."""
    number = Fraction(number)
    count = places([number]) if count is None else count
    scaled = number * 10**count
    before, after = divmod(abs(round(scaled)), 10**count)
    about = ABOUT if scaled % 1 else ""
    sign = "−" if round(scaled) < 0 else ""
    return f"{about}{sign}{before:,}" + (f".{after:0{count}}" if count else "")


def ratio(number: Fraction | int) -> str:
    """The exact value of a number that isn't whole, and nothing for a whole one."""
    number = Fraction(number)
    if number.denominator == 1:
        return ""
    return f"{number.numerator}/{number.denominator}".replace("-", "−")


def percent(part: int, all_of_it: int) -> str:
    """A share in a hundred to two digits, and nothing where there is no whole to share."""
    if all_of_it <= 0 or part < 0:
        return ""
    share = 100 * part / all_of_it
    if 0 < share < 0.1:
        return "< 0.1 %"
    if part < all_of_it and share >= 99.5:
        return "> 99 %"
    return f"{share:.2g} %" if share < 99.5 else f"{share:,.0f} %"
