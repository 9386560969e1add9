"""The command: a file in, a line and an exit status out."""
from __future__ import annotations

import os
from collections.abc import Callable

from .journals import LIMIT, Answer, check, gap
from .statements import audit

HELP = ("--help", "-h")
USAGE = """usage: ice-recheck JOURNAL
       ice-recheck --gap JOURNAL
       ice-reaudit STATEMENT

Judge a journal as `ice check` does, what it states where its branches are spent as `ice gap`, and a
statement as `ice audit`: the same line on standard output, and the same exit status. 0: yes, or a
gap. 1: the words are no command. 2: the file is refused. 3: no, a test failed. 6: the file could
not be read. 7: standard output failed. 8: want of memory. 130: an interrupt.

It is a second opinion, written from docs/formats.md and docs/definitions.md alone, and shares no
line with the program. Nothing of it is proved."""
NOT_PROVED = "a second opinion, of which nothing is proved"
JUDGES = {("ice-recheck",): check, ("ice-recheck", "--gap"): gap, ("ice-reaudit",): audit}


def answer_to(file: str, judge: Callable[[bytes], Answer]) -> Answer:
    """The answer of this judge to a file."""
    try:
        with open(file, "rb") as source:
            content = source.read(LIMIT + 1)
    except OSError:
        return Answer("unread 1", 6)
    return judge(content)


def is_text(word: str) -> bool:
    """Whether a word is UTF-8."""
    try:
        os.fsencode(word).decode("utf-8")
    except UnicodeDecodeError:
        return False
    return True


def say(text: str) -> None:
    """Writes a line on standard error, where there is one."""
    try:
        os.write(2, f"{text}\n".encode())
    except OSError:
        pass


def main(words: list[str], name: str = "ice-recheck") -> int:
    """Writes the answer of the command of this name to what the words name; the exit status."""
    judge = JUDGES.get((name, *words[:-1])) if words else None
    if len(words) == 1 and words[0] in HELP:
        answer = Answer(USAGE, 0)
    elif judge is None or not is_text(words[-1]):
        say(USAGE)
        answer = Answer("words refused", 1)
    else:
        say(f"{name}: {NOT_PROVED}")
        try:
            answer = answer_to(words[-1], judge)
        except MemoryError:
            return 8
        except KeyboardInterrupt:
            return 130
    try:
        os.write(1, f"{answer.line}\n".encode())
    except OSError:
        return 7
    return answer.status
