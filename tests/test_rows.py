"""Each row of each table, by each build of the program."""
import os
import tempfile
import unittest
from collections.abc import Callable
from pathlib import Path

from harness.cases import Case, table, tables
from harness.edge import edge
from harness.program import SECONDS, Program, Ran, programs

# A run that opens a pipe that nobody writes to would wait for ever, and is ended after so long.
PIPE_SECONDS = 10.0


def run(program: Program, case: Case, folder: Path) -> Ran:
    """Runs a case in a folder of its own."""
    words = case.lay(folder)
    for name in case.pipes:
        os.mkfifo(Path(folder, name))
    failing = case.write
    return program.run(
        words,
        folder=folder,
        environment=edge(fail_write=failing[0], after=failing[1]) if failing else None,
        seconds=PIPE_SECONDS if case.pipes else SECONDS,
    )


class Rows(unittest.TestCase):
    """A test for each table."""

    def try_case(self, program: Program, case: Case) -> None:
        """Tests a case, and where it says so what `check` answers on the output."""
        with tempfile.TemporaryDirectory() as name:
            folder = Path(name)
            ran = run(program, case, folder)
            self.assertEqual(list(case.due.faults(ran)), [], str(ran))
            answer = case.due.answer(ran.output)
            if answer is not None:
                journal = Path(folder, "written")
                journal.write_bytes(ran.output)
                checked = program.run(["check", journal])
                self.assertEqual(checked.output.decode(), answer, str(ran))

    def try_table(self, path: Path) -> None:
        """Tests each case of a table."""
        for program in programs():
            for case in table(path):
                with self.subTest(case.name, program=str(program)):
                    self.try_case(program, case)


def test_of(path: Path) -> Callable[[Rows], None]:
    """The test of a table."""

    def test(self: Rows) -> None:
        self.try_table(path)

    return test


for _path in tables():
    setattr(Rows, "test_" + _path.stem.replace("-", "_"), test_of(_path))


if __name__ == "__main__":
    unittest.main()
