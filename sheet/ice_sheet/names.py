"""Names that look like slips of each other."""
from __future__ import annotations

from itertools import combinations

LEAST = 4
MOST_TOLD = 5


def is_slip(one: str, other: str) -> bool:
    """Whether two names differ in case, in one letter, or in two letters that changed places.

    A digit more or another one makes a name of its own, as in `slot-1` and `slot-2`, and so does
    one letter at the end, as in `berth-A` and `berth-B`, or any in a name of fewer than four.
    """
    a, b = sorted((one.lower(), other.lower()), key=len)
    if one == other or a == b:
        return one != other
    if len(b) - len(a) > 1 or len(a) < LEAST:
        return False
    if a[:-1] == b[:-1] and a[-2] in "-_.":
        return False
    front = next((n for n, (x, y) in enumerate(zip(a, b)) if x != y), len(a))
    x, y = a[front:], b[front:]
    if len(x) < len(y):
        return x == y[1:] and not y[0].isdigit()
    if x[1:] == y[1:]:
        return not (x[0].isdigit() and y[0].isdigit())
    return x[:2] == y[1::-1] and x[2:] == y[2:] and not x[:2].isdigit()


def slips(names: list[str], what: str) -> list[str]:
    """A line for each two names that look like slips of each other, of the first where many do."""
    lines = [
        f"{what} `{one}` and `{other}` have almost the same name: are they two?"
        for one, other in combinations(names, 2)
        if is_slip(one, other)
    ]
    left = len(lines) - MOST_TOLD
    return lines[:MOST_TOLD] + [f"{what}: and {left} more"] * (left > 0)


def nearest(name: str, names: list[str]) -> str:
    """A question for a name that looks like a slip of one of these, and else nothing."""
    return next((f": is it `{other}`?" for other in names if is_slip(name, other)), "")
