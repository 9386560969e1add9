"""The checker's answer on a journal or a statement: who gave it, and whether it fits."""
from __future__ import annotations

import os
import select
import subprocess
from dataclasses import dataclass
from pathlib import Path
from threading import Thread
from typing import IO

from .journal import Journal
from .terminal import say

PROGRAM = Path(__file__).resolve().parents[2] / "ice"
NO_VERDICT = ("refused ", "unread ", "words refused")
STATEMENT = b"statement "
HELD_LINE, HELD_MILLISECONDS = 4096, 500


@dataclass
class Answer:
    """What the checker said of a journal.

    `asked` is the name of the program that was asked for this page, on the bytes that the page
    shows; where there is none, whoever made the page told the answer. No text is no answer.
    """

    text: str = ""
    asked: str = ""
    status: int = 0

    def fits(self, journal: Journal) -> bool:
        """Whether it is the answer that this journal asks for."""
        return bool(self.text) and self.text == due(journal) and self.status in (0, 3)

    def says_yes(self, journal: Journal) -> bool:
        """Whether it is a yes that fits this journal."""
        return self.fits(journal) and self.text.startswith("yes ")

    def is_verdict(self) -> bool:
        """Whether it judges the journal at all."""
        return bool(self.text) and not self.text.startswith(NO_VERDICT)


def due(journal: Journal) -> str:
    """The answer that the checker gives on this journal or statement where every test passes."""
    stop = journal.end
    if journal.of_statement and stop.word == "open":
        return f"no {stop.line} order"
    if journal.of_statement:
        payment = journal.payments[0].payment
        return f"yes {payment.numerator}/{payment.denominator}"
    if stop.word == "closed":
        surplus = journal.surplus
        return f"yes {journal.last.regret} {surplus.numerator}/{surplus.denominator}"
    if stop.word == "regret":
        return f"yes {journal.last.regret}"
    if stop.word == "assign":
        return f"yes {total(journal)}"
    return f"no {stop.line} closed"


def worths(journal: Journal) -> list[int]:
    """The lower value of each bidder's set in the trade that the journal shows."""
    sets = journal.shown.sets
    return [
        sum(value for value, bit in zip(low, bits) if bit == "1")
        for (low, _), bits in zip(journal.last.bounds, sets)
    ]


def total(journal: Journal) -> int:
    """The value of the trade that the journal shows: the stated one where there is one."""
    stated = journal.shown.value
    return sum(worths(journal)) if stated is None else stated


class Relay(Thread):
    """Says on standard error what a program says there, line by line, but for its last line.

    Behind that one it ends; it is kept for whoever knows whether it is worth a word. A line that
    is followed by nothing for half a second is not the last one.
    """

    def __init__(self, stream: IO[bytes]) -> None:
        super().__init__(daemon=True)
        self.stream, self.held = stream, b""
        self.start()

    @property
    def line(self) -> str:
        """The line that is kept, without its end."""
        return self.held.decode("utf-8", "replace").rstrip()

    def run(self) -> None:
        """Reads what the program says, until it ends."""
        more = select.poll()
        more.register(self.stream)
        while True:
            if self.held.endswith(b"\n") and not more.poll(HELD_MILLISECONDS):
                self.tell()
            piece = os.read(self.stream.fileno(), HELD_LINE)
            if not piece:
                break
            for part in piece.splitlines(keepends=True):
                if self.held.endswith(b"\n") or len(self.held) >= HELD_LINE:
                    self.tell()
                self.held += part
        self.stream.close()

    def tell(self) -> None:
        """Says what is kept."""
        say(self.line)
        self.held = b""


class Checker:
    """The program, which is fed the bytes of a file while they are read.

    It is asked `ice check` of a journal, and `ice audit` of a statement. `front` has the bytes by
    which these are told apart, until they are enough.
    """

    def __init__(self, program: str | Path = PROGRAM) -> None:
        self.program, self.asked, self.front, self.closed = str(program), "", b"", False

    def begin(self) -> None:
        """Starts the program on what was fed so far."""
        command = "audit" if self.front.startswith(STATEMENT) else "check"
        self.process = subprocess.Popen(
            [self.program, command, "/dev/stdin"],
            stdin=subprocess.PIPE,
            stdout=subprocess.PIPE,
            stderr=subprocess.PIPE,
        )
        made = self.process
        assert made.stdin is not None and made.stdout is not None and made.stderr is not None
        self.input: IO[bytes] = made.stdin
        self.output: IO[bytes] = made.stdout
        self.relay = Relay(made.stderr)
        self.asked = command
        self.put(self.front)

    def feed(self, block: bytes) -> None:
        """Hands bytes on; a program that reads no further has its answer all the same."""
        if self.asked:
            self.put(block)
            return
        self.front += block
        if len(self.front) >= len(STATEMENT):
            self.begin()

    def put(self, block: bytes) -> None:
        """Hands bytes to the program."""
        if self.closed:
            return
        try:
            self.input.write(block)
        except BrokenPipeError:
            self.closed = True

    def answer(self) -> Answer:
        """The program's answer, when all bytes are fed."""
        if not self.asked:
            self.begin()
        self.close_input()
        said = self.output.read(4096).decode("utf-8", "replace").strip()
        self.output.close()
        status = self.process.wait()
        self.relay.join(1)
        return Answer(said, f"{Path(self.program).name} {self.asked}", status)

    @property
    def said_last(self) -> str:
        """The last line that the program said on standard error, which is the only one not told."""
        return self.relay.line

    def stop(self) -> None:
        """Ends the program without its answer."""
        if not self.asked:
            return
        self.process.terminate()
        self.close_input()
        self.output.close()
        self.process.wait()

    def close_input(self) -> None:
        """Tells the program that no more bytes come."""
        try:
            self.input.close()
        except BrokenPipeError:
            pass
