"""Journals that commands write where the branches of the settings are spent: each has a gap that
`gap` tells, and that plain code finds to be so, in the place of every group."""
import re
import tempfile
import unittest
from collections.abc import Iterator
from pathlib import Path

from harness.cases import FILES
from harness.judge import gap_faults
from harness.program import DONE, INPUT, ROOT, SPENT, Program, programs

MOST = 40
BRANCHES = re.compile(r'("branches": |^settings(?: \d+){5} )\d+', re.MULTILINE)
# True values inside the bounds of the hall's market, node by node.
HALL = {
    "hall": "0, -10, -10, -10",
    "choir": "0, 70, 0, 0, 25",
    "opera": "60, 0, 0",
    "dance": "55, 0, 0",
}
MARKETS = (FILES / "core.exchange", FILES / "ring.exchange", ROOT / "examples/hall.json")


def spent_journals(program: Program, words: list[str | Path]) -> Iterator[bytes]:
    """What is written with 0 branches, with 1, and so on, as long as they are too few."""
    text = Path(words[1]).read_text()
    with tempfile.TemporaryDirectory() as folder:
        market = Path(folder, "market")
        for branches in range(MOST):
            market.write_text(BRANCHES.sub(rf"\g<1>{branches}", text))
            ran = program.run([words[0], market, *words[2:]])
            if ran.status != SPENT:
                assert ran.status != INPUT, ran
                return
            yield ran.output


class Gaps(unittest.TestCase):
    """The gaps of journals that are written."""

    def gap_of(self, program: Program, journal: bytes) -> str:
        """The group of the gap that the program tells of a journal; it has to be so."""
        with tempfile.NamedTemporaryFile() as file:
            Path(file.name).write_bytes(journal)
            ran = program.run(["gap", file.name])
        self.assertEqual(ran.status, DONE, str(ran))
        answer = ran.output.decode().strip()
        self.assertEqual(list(gap_faults(journal, answer)), [], answer)
        return answer.split()[1]

    def groups(self, program: Program, *words: str | Path) -> list[str]:
        """The groups of the gaps of a command on a market, by how many branches it has."""
        return [
            self.gap_of(program, journal) for journal in spent_journals(program, list(words))
        ]

    def test_each_group(self) -> None:
        for program in programs():
            found = {group for file in MARKETS for group in self.groups(program, "run", file)}
            self.assertEqual(found, {"final", "rival", "provisional", "without"})

    def test_regret(self) -> None:
        for program in programs():
            found = {group for file in MARKETS for group in self.groups(program, "regret", file)}
            self.assertEqual(found, {"final", "rival"})

    def test_simulate(self) -> None:
        hall = ROOT / "examples/hall.json"
        bids = ", ".join(
            f'{{"bidder": "{name}", "lo": [{values}], "hi": [{values}]}}'
            for name, values in HALL.items()
        )
        for program in programs():
            with tempfile.TemporaryDirectory() as folder:
                truths = Path(folder, "truths.json")
                truths.write_text(f'{{"bids": [{bids}]}}')
                found = self.groups(program, "simulate", hall, truths)
            self.assertLessEqual({"final", "rival", "provisional"}, set(found))


if __name__ == "__main__":
    unittest.main()
