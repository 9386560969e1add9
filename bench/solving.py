"""The assignment problems of a journal's searches, put to other solvers as linear programs in whole numbers."""
from __future__ import annotations

import argparse
import re
import shutil
import subprocess
import sys
import time
from collections.abc import Sequence
from pathlib import Path
from typing import IO, Any

HEADS = ("final", "rival", "provisional", "without")


def timed(words: Sequence[str | Path], out: IO[bytes] | int, most: float) -> tuple[int | None, float]:
    """The status of a command, None where it was cut off, and its milliseconds."""
    start = time.perf_counter()
    try:
        status: int | None = subprocess.run(words, stdout=out, stderr=subprocess.DEVNULL, timeout=most).returncode
    except subprocess.TimeoutExpired:
        status = None
    return status, 1000 * (time.perf_counter() - start)


class Problems:
    """The assignment problems of a journal's groups, each with the value that the journal states."""

    def __init__(self, text: str) -> None:
        self.exact: list[bool] = []
        self.trees: list[list[Any]] = []
        self.names: list[str] = []
        self.weight = 0
        self.lo: list[list[int]] = []
        self.hi: list[list[int]] = []
        self.found: list[tuple[str, int]] = []
        lines = [line.split() for line in text.splitlines()]
        for place, words in enumerate(lines):
            self.take(words, lines[place + 1 :])

    def take(self, words: list[str], later: list[list[str]]) -> None:
        if words[0] == "settings":
            self.weight = int(words[1])
        elif words[0] in ("good", "exact"):
            self.exact.append(words[0] == "exact")
        elif words[0] == "bidder":
            self.names.append(words[1])
            self.trees.append([])
            self.lo.append([])
            self.hi.append([])
        elif words[0] == "node":
            self.trees[-1].append([words[1], *map(int, words[2:-2])])
            self.lo[-1].append(int(words[-2]))
            self.hi[-1].append(int(words[-1]))
        elif words[0] == "submit" and later[0] == ["verdict", "accepted"]:
            bidder, nodes = self.names.index(words[1]), int(words[2])
            self.lo[bidder] = list(map(int, words[3 : 3 + nodes]))
            self.hi[bidder] = list(map(int, words[4 + nodes :]))
        elif words[0] in HEADS:
            sets = [bits for _word, bits in later[: len(self.names)]]
            if words[0] == "final":
                self.final = sets
            self.found.append((self.program(*self.values(words)), int(words[-1])))

    def values(self, words: list[str]) -> tuple[list[list[int]], int | None]:
        """The value of each node in the group, and the bidder that is left out."""
        low, high, mixed = self.lo, self.hi, words[0] == "provisional"
        if mixed:
            low = [[self.weight * lo + (100 - self.weight) * hi for lo, hi in zip(*both)] for both in zip(low, high)]
        if words[0] == "rival":
            low = [[lo if bit == "1" else hi for lo, hi, bit in zip(*all)] for all in zip(low, high, self.final)]
        return low, int(words[1]) if words[0] == "without" else None

    def program(self, values: list[list[int]], left_out: int | None) -> str:
        """The problem in the form of CPLEX: a variable of 0 or 1 for each node."""
        rows: list[str] = []
        units: list[list[str]] = [[] for _ in self.exact]
        for bidder, tree in enumerate(self.trees):
            self.tree_rows(bidder, tree, rows, units)
        for good, terms in enumerate(units):
            if terms:
                rows.append(" ".join(terms) + (" = 0" if self.exact[good] else " <= 0"))
        if left_out is not None:
            rows.append(f"x{left_out}_0 = 0")
        nodes = [(f"x{bidder}_{node}", value) for bidder, of in enumerate(values) for node, value in enumerate(of)]
        aim = "\n".join(f"{value:+d} {name}" for name, value in nodes)
        told = "\n".join(f"r{number}: {row}" for number, row in enumerate(rows))
        return f"Maximize\nvalue: {aim}\nSubject To\n{told}\nBinary\n" + "\n".join(name for name, _ in nodes) + "\nEnd\n"

    @staticmethod
    def tree_rows(bidder: int, tree: list[Any], rows: list[str], units: list[list[str]]) -> None:
        def walk(node: int) -> int:
            """Adds the rows of a node, and gives the node behind it."""
            form, *numbers = tree[node]
            name, next_one = f"x{bidder}_{node}", node + 1
            if form != "choose":
                good, amount = numbers
                units[good].append(f"{amount if form == 'buy' else -amount:+d} {name}")
                return next_one
            least, most, count = numbers
            children = []
            for _ in range(count):
                children.append(f"x{bidder}_{next_one}")
                rows.append(f"{children[-1]} - {name} <= 0")
                next_one = walk(next_one)
            taken = " + ".join(children)
            rows.append(f"{taken} - {most} {name} <= 0")
            rows.append(f"{taken} - {least} {name} >= 0")
            return next_one

        walk(0)


def solved(solver: str, folder: Path, most: float) -> tuple[int | None, float]:
    """The greatest value that a solver finds, None where it is cut off, and its milliseconds."""
    problem, answer = folder / "problem.lp", folder / "solution"
    words: dict[str, list[str | Path]] = {
        "glpk": ["glpsol", "--cuts", "--lp", problem, "--write", answer],
        "cbc": ["cbc", problem, "ratioGap", "0", "allowableGap", "0", "solve", "solution", answer, "quit"],
    }
    answer.unlink(missing_ok=True)
    status, took = timed(words[solver], subprocess.DEVNULL, most)
    if status is None:
        return None, took
    text = answer.read_text()
    (found,) = re.findall(r"(?m)^s mip \d+ \d+ o (\S+)" if solver == "glpk" else r"objective value (\S+)", text)[:1]
    return round(float(found) if solver == "glpk" else abs(float(found))), took


def installed(names: str) -> list[str]:
    """Those of the solvers that are installed, of names with commas between."""
    return [name for name in names.split(",") if name and shutil.which({"glpk": "glpsol"}.get(name, name))]


def put_to_solvers(told: argparse.Namespace, name: str, text: str, folder: Path) -> None:
    """Puts the problems of a journal to told.solvers, prints the time of each, and ends where one finds another value."""
    problems = Problems(text).found
    for solver in told.solvers:
        count, all_took = 0, 0.0
        for program, value in problems:
            (folder / "problem.lp").write_text(program)
            found, took = solved(solver, folder, told.seconds)
            all_took += took
            if found is None:
                break
            if found != value:
                sys.exit(f"{name}: {solver} finds {found}, the journal has {value}")
            count += 1
        end = "" if count == len(problems) else f", the next one cut off after {told.seconds:.0f} s"
        print(f"    {solver:5} {count} problems with the same values in {all_took:9.1f} ms{end}", flush=True)
