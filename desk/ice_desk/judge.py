"""The answer on a journal or a statement, which has to be the one that the file asks for."""
from __future__ import annotations

from pathlib import Path
from typing import Callable

from ice_page.checker import due
from ice_page.journal import Journal

from .stop import DONE, NO, Stop
from .tools import Ran, nothing, run


def said(ran: Ran, what: str) -> str:
    """What a program said of its end."""
    return "\n".join(ran.errors) or f"{what} ended with status {ran.status}"


def answer(
    program: Path, path: Path, journal: Journal, meanwhile: Callable[[str], None] = nothing
) -> str:
    """What is said of the journal or the statement in a file; Stop where it isn't what is due."""
    command = "audit" if journal.of_statement else "check"
    ran = run(program, command, path, meanwhile=meanwhile)
    found, wanted = ran.output.strip(), due(journal)
    if found != wanted or ran.status not in (DONE, NO):
        found = found or said(ran, command)
        raise Stop(NO, f"{path.name}: ice {command} says `{found}`, where `{wanted}` is due")
    return found
