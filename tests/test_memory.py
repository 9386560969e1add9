"""Want of memory: each request of a run refused in turn, alone and with all behind it, and limits
of the system on what a run may have."""
import re
import subprocess
import tempfile
import unittest
from collections.abc import Iterator, Sequence
from dataclasses import dataclass
from pathlib import Path

from harness.calls import CALLS, Word
from harness.edge import Counts, Held, counts, edge, held
from harness.program import IS_ALL, NO_MEMORY, ROOT, Program, Ran, programs

EXAMPLES = ROOT / "examples"

# Commands that write a journal as it is found, so that its front stands where memory is wanted.
GROWING = ("run", "simulate", "regret")

# Those that write it group by group, and the words of the lines that may come behind a whole group
# or a whole round.
BY_GROUPS = ("run", "simulate")
BETWEEN = set(
    b"ice settle provisional prices limit without spent threshold submit end".split()
)

GENERATED = [EXAMPLES / "generated.json", EXAMPLES / "generated.truth.json"]


def calls() -> Iterator[tuple[str, Sequence[Word]]]:
    """The calls whose requests are refused: all of the shared ones, and a generated market."""
    for call in CALLS.values():
        yield call.name, call.words()
    yield "run, generated", ["run", *GENERATED]


class Memory(unittest.TestCase):
    """Each test goes over all builds."""

    def setUp(self) -> None:
        folder = tempfile.TemporaryDirectory()
        self.addCleanup(folder.cleanup)
        self.file = Path(folder.name, "counts")

    def counts(self, program: Program, words: Sequence[Word]) -> Counts:
        """What a run counts. A build with an allocator of its own makes no request."""
        program.run(words, environment=edge(counts=self.file))
        found = counts(self.file)
        if found.requests == 0:
            self.skipTest(f"{program} asks for memory in another way")
        return found

    def is_front(self, ran: Ran, whole: Ran, command: str) -> bytes:
        """Tests that a run ended for want of memory, and wrote what belongs to that. What comes
        next in the whole journal begins with the word that it gives."""
        self.assertEqual((ran.status, ran.errors), (NO_MEMORY, b""), str(ran))
        if command not in GROWING:
            self.assertEqual(ran.output, b"")
        self.assertTrue(whole.output.startswith(ran.output), str(ran))
        self.assertTrue(ran.output == b"" or ran.output.endswith(b"\n"), str(ran))
        self.assertLess(len(ran.output), len(whole.output), "a stop stands in it")
        word = whole.output[len(ran.output) :].split(maxsplit=1)[0]
        if command in BY_GROUPS:
            self.assertIn(word, BETWEEN, str(ran))
        return word

    def walk(self, words: Sequence[Word], step: int, **variables: int) -> set[bytes]:
        """Refuses requests of a call in turn, each at a run of its own, and gives the words with
        which the rest of the journal begins."""
        behind = set()
        for program in programs():
            whole = program.run(words)
            count = self.counts(program, words).requests
            wanted = 0
            for number in range(1, count + 1, step):
                with self.subTest(" ".join(map(str, words)), number=number, program=str(program)):
                    ran = program.run(words, environment=edge(fail_memory=number, **variables))
                    # Room that an iterator's hint asks for is asked for again, as it is needed.
                    if variables or (ran.status, ran.output) != (whole.status, whole.output):
                        behind.add(self.is_front(ran, whole, str(words[0])))
                        wanted += 1
            self.assertGreater(wanted, 0)
        return behind

    def test_each_request_alone(self) -> None:
        for name, words in calls():
            self.walk(words, self.step(name))

    def test_each_request_and_all_behind_it(self) -> None:
        for name, words in calls():
            self.walk(words, self.step(name), fail_on=1)

    def test_groups_stand_before_the_next_search(self) -> None:
        # settle with its final sets and their rival, the provisional sets, and those without each
        # bidder: what is found is written before memory for the next search is asked for
        behind = self.walk(["run", *GENERATED], 5, fail_on=1)
        self.assertLessEqual({b"settle", b"provisional", b"prices", b"without"}, behind)

    def test_groups_that_stand_are_let_go(self) -> None:
        # A step of a log takes more room than the bytes of its line. So who held the groups without
        # each bidder to the end of the session held more than they have bytes.
        market = [self.file.with_suffix(ending) for ending in (".json", ".t.json")]
        drawn: list[str | Path] = [ROOT / "bench/market", "units", "2", "1", *market]
        subprocess.run(drawn, stderr=subprocess.DEVNULL, check=True)
        for program in programs():
            with self.subTest(str(program)):
                self.counts(program, ["run", *market])
                ran = program.run(["run", *market], environment=edge(held=self.file))
                heads = map(ran.output.index, (b"\nwithout 0 ", b"\nthreshold "))
                first, behind = (place + 1 for place in heads)
                writes = held(self.file)
                self.assertLess(at_write(writes, behind) - at_write(writes, first), behind - first)

    def step(self, name: str) -> int:
        """Every request is refused of most calls, and of the long ones where all is tested."""
        return 1 if IS_ALL or name not in ("gen", "run, generated") else 10

    def test_limits_of_the_system(self) -> None:
        for program in filter(lambda made: made.keeps_to_room, programs()):
            for name, words in calls():
                with self.subTest(name, program=str(program)):
                    self.limited(program, words)

    def limited(self, program: Program, words: Sequence[Word]) -> None:
        """Runs a call with ten limits of its room, from what a run wants that refuses its words to
        what the call wants."""
        whole = program.run(words)
        least = usage(program, [], 1)
        most = usage(program, words, self.counts(program, words).writes)
        for tenth in range(1, 11):
            room = least.data + (most.peak - least.peak) * tenth // 10
            ran = program.run(words, room=room)
            if (ran.status, ran.output) != (whole.status, whole.output):
                self.is_front(ran, whole, str(words[0]))


def at_write(writes: Sequence[Held], place: int) -> int:
    """The bytes of memory that a run held as it wrote the byte at a place of its output."""
    for write in writes:
        if place < write.written:
            return write.memory
        place -= write.written
    raise AssertionError("so much wasn't written")


@dataclass(frozen=True)
class Usage:
    """The bytes that a run has for its data, and those of all its addresses at most so far."""

    data: int
    peak: int


def usage(program: Program, words: Sequence[Word], writes: int) -> Usage:
    """What a run has as it begins the last of its writes."""
    child = program.stopped(words, edge(stop_write=writes))
    status = Path(f"/proc/{child.pid}/status").read_text()
    child.kill()
    child.communicate()
    sizes = dict(re.findall(r"^(Vm\w+):\s*([0-9]+) kB$", status, re.MULTILINE))
    return Usage(int(sizes["VmData"]) * 1024, int(sizes["VmPeak"]) * 1024)


if __name__ == "__main__":
    unittest.main()
