"""The settings of a market."""
from __future__ import annotations

from typing import Any

from . import jsontext

LIMITS = {
    "weight": (0, 100),
    "close_regret": (0, 10**12),
    "cap": (1, 10**9),
    "improve": (0, 10**9),
    "rounds": (0, 20),
    "branches": (0, 50_000),
    "derived": (0, 2_000),
}


def settings_of(value: Any, place: str) -> dict[str, int]:
    """The settings in a value of JSON, of which `derived` may be left out.

    BadFile where they aren't just these.
    """
    has_derived = isinstance(value, dict) and "derived" in value
    names = tuple(name for name in LIMITS if has_derived or name != "derived")
    given = jsontext.members(value, names, place)
    return {
        name: jsontext.number(given[name], *LIMITS[name], f"{place}: `{name}`") for name in names
    }
