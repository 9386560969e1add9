"""Faults where the program meets the system: reads and writes that fail or come short, files that
are none, change or go, and a standard output that takes nothing."""
from __future__ import annotations

import functools
import os
import resource
import signal
import subprocess
import tempfile
import unittest
from collections.abc import Callable, Sequence
from pathlib import Path
from threading import Timer
from typing import TypeVar

from harness import made
from harness.calls import CALLS, Call, Word
from harness.cases import FILES, shared
from harness.edge import counts, edge
from harness.program import DONE, INPUT, NO, SECONDS, UNREAD, WORDS, WRITE_FAULT
from harness.program import Program, Ran, ended, limit, programs

NOBODY = 65534

# A class of tests: that of the test which is made one of each call.
Tests = TypeVar("Tests", bound="Edge")

# So many bytes of lines `migrate` gathers at most, before it writes them.
GATHERED = 65_536


def gathered(lines: Sequence[bytes]) -> Sequence[bytes]:
    """What each write has of lines that are gathered: as many of them as there is room for."""
    whole = [b""]
    for line in lines:
        if len(whole[-1]) + len(line) > GATHERED:
            whole.append(b"")
        whole[-1] += line
    return whole


def pieces(command: str, output: bytes) -> Sequence[bytes]:
    """What each write has: a line with its newline, of `migrate` the head, and then lines that are
    gathered, and of the first line of a statement the word, the name and the newline."""
    lines = output.splitlines(keepends=True)
    if command == "migrate":
        return [lines[0], *gathered(lines[1:])]
    if command == "statement":
        word, name = lines[0].split()
        return [word + b" ", name, b"\n", *lines[1:]]
    return lines


def for_each_call(test: Callable[[Tests, Program, Call, Ran], None]) -> Callable[[Tests], None]:
    """A test of each call by each build, with what it gives where nothing fails."""

    @functools.wraps(test)
    def whole_test(self: Tests) -> None:
        for program in programs():
            for call in CALLS.values():
                with self.subTest(call.name, program=str(program)):
                    test(self, program, call, program.run(call.words()))

    return whole_test


def for_each_file(
    test: Callable[[Tests, Program, Call, int, Ran], None]
) -> Callable[[Tests], None]:
    """A test of each word of each call that names a file, by its place."""

    @functools.wraps(test)
    def whole_test(self: Tests, program: Program, call: Call, whole: Ran) -> None:
        for place in call.files:
            with self.subTest(place=place):
                test(self, program, call, place, whole)

    return for_each_call(whole_test)


class Edge(unittest.TestCase):
    """What the tests of faults share."""

    def setUp(self) -> None:
        folder = tempfile.TemporaryDirectory()
        self.addCleanup(folder.cleanup)
        self.folder = Path(folder.name)

    def is_same(self, ran: Ran, due: Ran) -> None:
        """Tests that a run gave the same as another."""
        self.assertEqual((ran.status, ran.output, ran.errors), (due.status, due.output, b""))

    def fails_to_write(self, ran: Ran, front: bytes) -> None:
        """Tests that a run ended by its output, with this front."""
        self.assertEqual((ran.status, ran.output, ran.errors), (WRITE_FAULT, front, b""))

    def unread(self, call: Call, ran: Ran, whole: Ran) -> int:
        """The number of the file that a run couldn't read, which its last line names. A journal
        that was begun stands before it, up to the round."""
        *front, last = ran.output.splitlines(keepends=True)
        self.assertRegex(last, rb"^unread [1-9][0-9]?\n$")
        self.assertEqual((ran.status, ran.errors), (UNREAD, b""))
        number = int(last.split()[1])
        if call.command == "run" and number > 1:
            self.assertTrue(whole.output.startswith(b"".join(front)))
            settled = [line for line in front if line.startswith(b"settle ")]
            self.assertEqual(settled[-1], b"settle %d\n" % (number - 2))
            self.assertRegex(front[-1], rb"^(balance|row) ")
        else:
            self.assertEqual(front, [])
        return number


class Writes(Edge):
    """Writes that fail or come short."""

    @for_each_call
    def test_each_write_fails_after_no_byte_and_after_one(self, program: Program, call: Call, whole: Ran) -> None:
        front = b""
        for number, piece in enumerate(pieces(call.command, whole.output), 1):
            for taken in (0, 1):
                faults = edge(fail_write=number, after=taken)
                ran = program.run(call.words(), environment=faults)
                self.fails_to_write(ran, front + piece[:taken])
            front += piece

    @for_each_call
    def test_each_write_takes_a_byte(self, program: Program, call: Call, whole: Ran) -> None:
        for size in (1, 7):
            self.is_same(program.run(call.words(), environment=edge(short_write=size)), whole)

    def test_long_writes_fail(self) -> None:
        journal, file = self.folder / "journal", self.folder / "counts"
        journal.write_bytes(made.long_session(1))
        words: list[Word] = ["migrate", journal]
        due = pieces("migrate", made.long_session(2))
        for program in programs():
            self.is_same(
                program.run(words, environment=edge(counts=file)), Ran(DONE, b"".join(due), b"")
            )
            self.assertEqual(counts(file).writes, len(due))
            for number in (1, 2, 3, len(due)):
                with self.subTest(number=number, program=str(program)):
                    ran = program.run(words, environment=edge(fail_write=number))
                    self.fails_to_write(ran, b"".join(due[: number - 1]))

    def test_a_file_that_takes_no_more_bytes(self) -> None:
        # The system's own limit of a file's length, without a file in C: after each byte.
        for program in programs():
            for name in ("check, closed at once", "run, closed at once", "migrate"):
                call = CALLS[name]
                whole = program.run(call.words()).output
                for size in range(0, len(whole), 1 + len(whole) // 50):
                    with self.subTest(name, size=size, program=str(program)):
                        self.limited(program, call, whole, size)

    def limited(self, program: Program, call: Call, whole: bytes, size: int) -> None:
        """Tests a run whose output is a file of so many bytes at most."""

        def most() -> None:
            signal.signal(signal.SIGXFSZ, signal.SIG_IGN)
            limit(resource.RLIMIT_FSIZE, size)

        path = self.folder / "output"
        with path.open("wb") as file:
            status = subprocess.run(
                [program.path, *call.words()], stdout=file, preexec_fn=most, restore_signals=False
            ).returncode
        self.assertEqual((status, path.read_bytes()), (WRITE_FAULT, whole[:size]))

    def status_onto(self, program: Program, call: Call, output: str) -> tuple[int, str]:
        """The status, and standard error, of a run with this standard output in a shell."""
        words: list[Word] = ["sh", "-c", f'"$@" {output}', "sh", program.path, *call.words()]
        ran = subprocess.run(words, stdin=subprocess.DEVNULL, capture_output=True, text=True)
        self.assertEqual(ran.stdout, "")
        return ran.returncode, ran.stderr

    @for_each_call
    def test_a_full_device(self, program: Program, call: Call, _: Ran) -> None:
        self.assertEqual(self.status_onto(program, call, ">/dev/full"), (WRITE_FAULT, ""))

    @for_each_call
    def test_an_output_that_is_closed(self, program: Program, call: Call, _: Ran) -> None:
        self.assertEqual(self.status_onto(program, call, ">&-"), (WRITE_FAULT, ""))

    @for_each_call
    def test_an_output_that_is_read_only(self, program: Program, call: Call, _: Ran) -> None:
        self.assertEqual(self.status_onto(program, call, "1</dev/null"), (WRITE_FAULT, ""))

    @for_each_call
    def test_a_pipe_whose_reader_went(self, program: Program, call: Call, _: Ran) -> None:
        reader, writer = os.pipe()
        os.close(reader)
        ran = subprocess.run(
            [program.path, *call.words()], stdout=writer, stderr=subprocess.PIPE
        )
        os.close(writer)
        self.assertEqual((ran.returncode, ran.stderr), (WRITE_FAULT, b""))

    @for_each_call
    def test_other_streams_that_are_closed(self, program: Program, call: Call, whole: Ran) -> None:
        for streams in ("<&-", "2>&-", "<&- 2>&-"):
            words: list[Word] = ["sh", "-c", f'"$@" {streams}', "sh", program.path, *call.words()]
            ran = subprocess.run(words, capture_output=True)
            self.is_same(Ran(ran.returncode, ran.stdout, ran.stderr), whole)

    def test_a_signal_leaves_whole_lines(self) -> None:
        call = CALLS["run, with a round"]
        for program in programs():
            lines = program.run(call.words()).output.splitlines(keepends=True)
            for number in (1, 2, 20, len(lines)):
                for kill in (signal.SIGTERM, signal.SIGINT, signal.SIGHUP, signal.SIGKILL):
                    with self.subTest(str(kill), number=number, program=str(program)):
                        child = program.stopped(call.words(), edge(stop_write=number))
                        child.send_signal(kill)
                        child.send_signal(signal.SIGCONT)
                        ran = ended(child)
                        self.assertEqual(ran.output, b"".join(lines[: number - 1]))
                        self.assertEqual((ran.status, ran.errors), (-kill, b""))


class Reads(Edge):
    """Reads that fail or come short, and files that change meanwhile."""

    @for_each_call
    def test_each_read_gives_few_bytes(self, program: Program, call: Call, whole: Ran) -> None:
        for size in (1, 7):
            self.is_same(program.run(call.words(), environment=edge(short_read=size)), whole)

    @for_each_call
    def test_each_read_fails(self, program: Program, call: Call, whole: Ran) -> None:
        file = self.folder / "counts"
        program.run(call.words(), environment=edge(counts=file, short_read=64))
        reads = counts(file).reads
        self.assertGreaterEqual(reads, len(call.files))
        unread = []
        for number in range(1, reads + 1):
            ran = program.run(call.words(), environment=edge(fail_read=number, short_read=64))
            unread.append(self.unread(call, ran, whole))
        self.assertEqual(unread, sorted(unread), "files are read in their order")
        self.assertEqual(sorted(set(unread)), list(range(1, len(call.files) + 1)))

    def test_long_files_in_parts(self) -> None:
        # A journal, which is written again line by line, and an exchange at its limit and past it.
        journal, exchange = self.folder / "journal", self.folder / "exchange"
        journal.write_bytes(made.long_session(1))
        migrated = Ran(DONE, made.long_session(2), b"")
        whole = made.exchange(made.SELLER, made.BUYER)
        whole += b" " * (made.EXCHANGE_BYTES - len(whole))
        sets = Ran(DONE, b"best s 500\nset 1\nbest b 1000\nset 1\nend best\n", b"")
        refused = Ran(INPUT, b"refused 1 61 -\n", b"")
        file = self.folder / "counts"
        for program in programs():
            for size in (7, 16_384, 1_000_000):
                with self.subTest(size=size, program=str(program)):
                    faults = edge(short_read=size, counts=file)
                    self.is_same(program.run(["migrate", journal], environment=faults), migrated)
                    last = counts(file).reads
                    self.assertGreater(last * size, journal.stat().st_size)
                    for number in (last // 2, last):
                        faults = edge(short_read=size, fail_read=number)
                        ran = program.run(["migrate", journal], environment=faults)
                        self.is_same(ran, Ran(UNREAD, b"unread 1\n", b""))
            for data, due in ((whole, sets), (whole + b" ", refused)):
                exchange.write_bytes(data)
                with self.subTest(length=len(data), program=str(program)):
                    words: list[Word] = ["best", exchange, FILES / "fifteen.prices"]
                    self.is_same(program.run(words, environment=edge(short_read=16_384)), due)

    def test_a_file_that_changes_while_it_is_read(self) -> None:
        journal = self.folder / "journal"
        whole = shared("sale.assign")
        changes: tuple[tuple[Callable[[], object], str], ...] = (
            (lambda: journal.unlink(), "yes 10\n"),
            (lambda: journal.write_text(""), "refused 1 51 2\n"),
            (lambda: os.truncate(journal, 20), "refused 1 51 2\n"),
            (lambda: journal.write_text(whole + "end assign\n"), "no 12 order\n"),
            (lambda: journal.rename(self.folder / "other"), "yes 10\n"),
        )
        for change, due in changes:
            for program in programs():
                with self.subTest(due, program=str(program)):
                    journal.write_text(whole)
                    child = program.stopped(["check", journal], edge(short_read=16, stop_read=2))
                    change()
                    child.send_signal(signal.SIGCONT)
                    ran = ended(child)
                    self.assertEqual((ran.output.decode(), ran.errors), (due, b""))

    def test_files_that_go_between_two_rounds(self) -> None:
        # The exchange is read before the first line is written, and a round when it begins.
        for program in programs():
            call = CALLS["run, with a round"]
            whole = program.run(call.words())
            lines = whole.output.splitlines(keepends=True)
            names = [self.folder / name for name in ("exchange", "round")]
            for name, path in zip(names, call.words()[1:]):
                name.write_bytes(Path(os.fsdecode(path)).read_bytes())
            child = program.stopped(["run", *names], edge(stop_write=2))
            names[0].unlink()
            child.send_signal(signal.SIGCONT)
            self.is_same(ended(child), whole)
            names[0].write_text(shared("tightened.exchange"))
            child = program.stopped(["run", *names], edge(stop_write=2))
            names[1].unlink()
            child.send_signal(signal.SIGCONT)
            ran = ended(child)
            before = next(at for at, line in enumerate(lines) if line.startswith(b"submit"))
            self.assertEqual(ran.output, b"".join(lines[:before]) + b"unread 2\n")
            self.assertEqual(ran.status, UNREAD)

    def test_a_round_is_read_when_it_begins(self) -> None:
        # Each line is written as soon as it is known, those of a settlement before its round.
        call = CALLS["run, with a round"]
        pipe = self.folder / "pipe"
        os.mkfifo(pipe)
        _, exchange, bids = call.words()
        for program in programs():
            whole = program.run(call.words())
            front = whole.output[: whole.output.index(b"submit")]
            child = program.start(["run", exchange, pipe])
            assert child.stdout is not None
            timer = Timer(SECONDS, child.kill)
            timer.start()
            read = b""
            while len(read) < len(front) and (more := child.stdout.read(len(front) - len(read))):
                read += more
            timer.cancel()
            self.assertEqual(read, front)
            pipe.write_bytes(Path(os.fsdecode(bids)).read_bytes())
            ran = ended(child)
            self.is_same(Ran(ran.status, read + ran.output, ran.errors), whole)


class Files(Edge):
    """What a word may name instead of a file."""

    @for_each_file
    def test_names_that_cannot_be_read(self, program: Program, call: Call, place: int, whole: Ran) -> None:
        link, circle = self.folder / "link", self.folder / "circle"
        for path, target in ((link, self.folder / "nowhere"), (circle, circle)):
            path.unlink(missing_ok=True)
            path.symlink_to(target)
        names: tuple[Word, ...] = (
            "",
            "-",
            self.folder,
            self.folder / "absent",
            link,
            circle,
            "x" * 5000,
            FILES / "sale.assign" / "inside",
            "/dev/stdin",
        )
        for name in names:
            words = call.words({place: name})
            closed: list[Word] = ["sh", "-c", '"$@" <&-', "sh", program.path, *words]
            ran = subprocess.run(closed, capture_output=True)
            number = self.unread(call, Ran(ran.returncode, ran.stdout, ran.stderr), whole)
            self.assertEqual(number, place, name)

    def test_a_file_without_leave(self) -> None:
        is_root = os.geteuid() == 0
        closed = self.folder / "closed"
        closed.write_text(shared("sale.assign"))
        closed.chmod(0)
        self.folder.chmod(0o755)
        for program in programs():
            words: list[Word] = [program.path, "check", closed]
            try:
                ran = subprocess.run(words, capture_output=True, user=NOBODY if is_root else None)
            except PermissionError:
                self.skipTest("root reads every file, and nobody else may run the program")
            self.assertEqual((ran.returncode, ran.stdout), (UNREAD, b"unread 1\n"))

    @for_each_file
    def test_an_empty_device(self, program: Program, call: Call, place: int, _: Ran) -> None:
        ran = program.run(call.words({place: "/dev/null"}))
        if call.command == "audit":
            # no line of it is at fault: it is a statement that ends too early
            self.assertEqual(ran, Ran(NO, b"no 1 short\n", b""))
            return
        self.assertEqual((ran.status, ran.errors), (INPUT, b""))
        self.assertRegex(ran.output.splitlines()[-1], b"^refused %d " % place)

    def test_a_device_that_never_ends(self) -> None:
        for name in ("check, closed at once", "run, closed at once", "run, with a round", "best"):
            call = CALLS[name]
            last = call.files[-1]
            for program in programs():
                with self.subTest(name, program=str(program)):
                    ran = program.run(call.words({last: "/dev/zero"}))
                    self.assertEqual((ran.status, ran.errors), (INPUT, b""))
                    self.assertEqual(ran.output.splitlines()[-1], b"refused %d 61 -" % last)

    @for_each_file
    def test_links_and_pipes(self, program: Program, call: Call, place: int, whole: Ran) -> None:
        link, pipe = self.folder / "link", self.folder / "pipe"
        for path in (link, pipe):
            path.unlink(missing_ok=True)
        file = Path(os.fsdecode(call.words()[place]))
        link.symlink_to(file)
        self.is_same(program.run(call.words({place: link})), whole)
        os.mkfifo(pipe)
        data = file.read_bytes()
        part = 1 + len(data) // 5
        child = program.start(call.words({place: pipe}))
        with pipe.open("wb", buffering=0) as writer:
            for at in range(0, len(data), part):
                writer.write(data[at : at + part])
        self.is_same(ended(child), whole)

    @for_each_file
    def test_words_that_are_no_text(self, program: Program, call: Call, place: int, _: Ran) -> None:
        ran = program.run(call.words({place: b"caf\xe9"}))
        self.assertEqual((ran.status, ran.output), (WORDS, b"words refused\n"))


if __name__ == "__main__":
    unittest.main()
