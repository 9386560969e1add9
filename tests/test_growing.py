"""A session's journal grows as it is found: each group stands before the next search begins."""
import json
import os
import resource
import subprocess
import tempfile
import unittest
from pathlib import Path

from harness.edge import edge
from harness.program import DONE, ROOT, Program, programs

# A market whose searches take a second or so, and whose journal fits into a pipe up to the group
# without the first bidder.
MARKET = ("units", "3", "1")


def processor_time() -> float:
    """The seconds of a processor that all runs which have ended took together."""
    used = resource.getrusage(resource.RUSAGE_CHILDREN)
    return used.ru_utime + used.ru_stime


class Growing(unittest.TestCase):
    """Each test goes over all builds."""

    def setUp(self) -> None:
        folder = tempfile.TemporaryDirectory()
        self.addCleanup(folder.cleanup)
        self.market = Path(folder.name, "market.json")
        files = [self.market, Path(folder.name, "truths.json")]
        draws = [str(ROOT / "bench/market"), *MARKET, *map(str, files)]
        subprocess.run(draws, check=True, stderr=subprocess.DEVNULL)
        exchange = json.loads(self.market.read_text())
        exchange["settings"]["rounds"] = 0
        self.market.write_text(json.dumps(exchange))

    def stopped_at(self, program: Program, line: int) -> bytes:
        """What a reader has of a run that stops itself as it begins to write this line, from 0 on,
        and is ended there."""
        child = program.stopped(["run", self.market], edge(stop_write=line + 1))
        assert child.stdout is not None
        os.set_blocking(child.stdout.fileno(), False)
        seen: bytes | None = child.stdout.read()
        child.kill()
        child.communicate()
        return seen or b""

    def test_groups_stand_while_the_program_searches(self) -> None:
        for program in programs():
            with self.subTest(program=str(program)):
                begun = processor_time()
                whole = program.run(["run", self.market])
                late = processor_time() - begun
                self.assertEqual(whole.status, DONE, str(whole))
                lines = whole.output.splitlines(keepends=True)
                heads = [
                    number for number, line in enumerate(lines) if line.startswith(b"without ")
                ]
                self.assertGreater(len(heads), 8)
                begun = processor_time()
                seen = self.stopped_at(program, heads[1])
                early = processor_time() - begun
                self.assertEqual(seen, b"".join(lines[: heads[1]]))
                self.assertIn(b"\nwithout 0 ", seen)
                # the searches without the other bidders were still to come
                self.assertLess(early, late * 3 / 4)


if __name__ == "__main__":
    unittest.main()
