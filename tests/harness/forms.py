"""The forms of answers: what each command may write at each status."""
from __future__ import annotations

import json
import re
from collections.abc import Callable

from harness import program
from harness.program import Ran

RULES = (
    "closed|order|short|exchange|count|parent|few|many|fixing|excess|value|near|sign|fixed|above"
    "|alive|regret|prices|violation|accuracy|balance|verdict|threshold|payment"
)
NUMBER = "(0|-?[1-9][0-9]*)"
PLACE = r"(-|[A-Za-z0-9_.\-]{1,256})"
NAME = r"[A-Za-z0-9_.\-]{1,32}"
FRACTION = rf"{NUMBER}/[1-9][0-9]*"
GROUP = r"(final|rival|provisional|without [0-9]+)"

REFUSED = rf"refused [1-9][0-9]? [1-9][0-9]? {PLACE}"
LINES = {
    program.WORDS: "words refused",
    program.INPUT: REFUSED,
    program.NO: rf"no [1-9][0-9]* ({RULES})",
    program.SPENT: "end spent",
    program.LIMIT: "end limit",
    program.UNREAD: r"unread [1-9][0-9]?",
    program.OPEN: "end open",
}
NO_GAP = LINES[program.NO].replace("closed", "spent")  # of `gap`, which goes on behind a stop
DONE = {
    "check": rf"yes {NUMBER}( {FRACTION})?",
    "best": "end best",
    "regret": "end regret",
    "replay": "end replay",
    "run": "end closed",
    "simulate": "end closed",
    "gen": "end gen",
    "migrate": "end (regret|closed|open|spent|limit)|unread [0-9]+|" + REFUSED,
    "statement": "end statement",
    "audit": rf"yes {FRACTION}",
    "fair": "end fair",
    "gap": rf"gap {GROUP} {NUMBER} {NUMBER}",
}
BEST = rf"(best {NAME} {NUMBER}\nset [01]+\n)+end best\n"
REPLAY = (
    rf"settle {NUMBER}\n(bounds {NAME}( {NUMBER})+\n)+final {NUMBER}\nregret {NUMBER}\n"
    rf"(prices( {NUMBER})+\n)?end replay\n"
)

ROWS = rf"(row {NUMBER} {NUMBER} [01]+\n)*"
FAIR = (
    rf"prices( {NUMBER})+\naccuracy {NUMBER} {NUMBER}\n{ROWS}distance {FRACTION}\n"
    rf"fairness {NUMBER}\n(hold {NUMBER} {NUMBER} {NUMBER}\n)*{ROWS}end fair\n"
)
STAGE = r"accuracy|balance|fairness"
FAIR_LIMIT = (
    rf"limit ({STAGE}) (wide|pivots|rows|den) {NUMBER} {NUMBER}\n"
    rf"(pool {NUMBER} [01]+\n)*end limit\n"
)

# The statuses that a command may end with, where its words are in order and its files are read.
STATUSES = {
    "check": {program.DONE, program.INPUT, program.NO},
    "replay": {program.DONE, program.INPUT, program.NO},
    "migrate": {program.DONE, program.INPUT, program.NO},
    "statement": {program.DONE, program.INPUT, program.NO},
    "audit": {program.DONE, program.INPUT, program.NO},
    "fair": {program.DONE, program.INPUT, program.NO, program.LIMIT},
    "gap": {program.DONE, program.INPUT, program.NO},
    "best": {program.DONE, program.INPUT},
    "xor": {program.DONE, program.INPUT},
    "regret": {program.DONE, program.INPUT, program.SPENT},
    "run": {program.DONE, program.INPUT, program.SPENT, program.LIMIT, program.OPEN},
    "simulate": {program.DONE, program.INPUT, program.SPENT, program.LIMIT},
    "gen": {program.DONE, program.SPENT, program.LIMIT},
}


def is_exchange_text(text: str) -> bool:
    """Whether this is an exchange in JSON on one line."""
    try:
        whole = json.loads(text)
    except ValueError:
        return False
    return text.count("\n") == 1 and sorted(whole) == ["bidders", "goods", "settings"]


WHOLE: dict[str, Callable[[str], object]] = {
    "check": lambda text: text.count("\n") == 1,
    "best": lambda text: re.fullmatch(BEST, text),
    "replay": lambda text: re.fullmatch(REPLAY, text),
    "xor": is_exchange_text,
    "regret": lambda text: text.startswith("ice 2 regret\n"),
    "run": lambda text: text.startswith("ice 2 session\n"),
    "simulate": lambda text: text.startswith("ice 2 session\n"),
    "migrate": lambda text: text.startswith("ice 2 "),
    "statement": lambda text: text.startswith("statement "),
    "audit": lambda text: text.count("\n") == 1,
    "fair": lambda text: re.fullmatch(f"{FAIR}|{FAIR_LIMIT}", text),
    "gap": lambda text: text.count("\n") == 1,
    "gen": lambda text: text.count("\n") == 10,
}


def misshapen(command: str, ran: Ran) -> str | None:
    """Why this is no answer of the command, or None where it is one."""
    if ran.status not in STATUSES[command]:
        return f"{command} doesn't end with status {ran.status}"
    if ran.errors:
        return "standard error isn't empty"
    try:
        text = ran.output.decode("ascii")
    except UnicodeDecodeError:
        return "bytes that are no text"
    if not text.endswith("\n"):
        return "the last line has no newline"
    last = text[:-1].rsplit("\n", 1)[-1]
    due = DONE.get(command) if ran.status == program.DONE else LINES[ran.status]
    due = NO_GAP if (command, ran.status) == ("gap", program.NO) else due
    if due is not None and not re.fullmatch(due, last):
        return f"the last line isn't {due!r}"
    if ran.status == program.DONE:
        return None if WHOLE[command](text) else "this is no whole answer"
    alone = text.count("\n") == 1
    if ran.status == program.NO or (ran.status == program.INPUT and command != "run"):
        return None if alone else "more than a line"
    if not alone and not WHOLE[command](text):
        return "this is no journal"
    return None
