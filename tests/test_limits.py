"""Files at their limits and one past them."""
import tempfile
import unittest
from pathlib import Path

from harness import made
from harness.cases import FILES, status_of
from harness.program import DONE, IS_ALL, programs


class Limits(unittest.TestCase):
    """What is taken at a limit, and what is refused past it."""

    def setUp(self) -> None:
        folder = tempfile.TemporaryDirectory()
        self.addCleanup(folder.cleanup)
        self.file = Path(folder.name, "file")

    def answers(self, data: bytes, output: str, *calls: list[str]) -> None:
        """Tests what each of these calls writes of a file that has these bytes. The word `file`
        names it, and others lie among the shared files."""
        self.file.write_bytes(data)
        words = {"file": self.file}
        for program in programs():
            for command, *names in calls:
                with self.subTest(command, program=str(program)):
                    ran = program.run([command, *(words.get(name, FILES / name) for name in names)])
                    self.assertEqual(ran.output.decode(), output)
                    self.assertEqual((ran.status, ran.errors), (status_of(output), b""))

    def refused(self, data: bytes, output: str) -> None:
        """Tests that each command refuses an exchange so."""
        calls = ["best", "file", "fifteen.prices"], ["regret", "file"], ["run", "file"]
        self.answers(data, output, *calls)

    def begins_journal(self, data: bytes) -> None:
        """Tests that `run` and `regret` take an exchange, up to the end of their journals."""
        self.file.write_bytes(data)
        for program in programs():
            for command, kind in (("run", b"session"), ("regret", b"regret")):
                with self.subTest(command, program=str(program)):
                    ran = program.run([command, self.file])
                    self.assertTrue(ran.output.startswith(b"ice 2 %s\n" % kind), str(ran))
                    self.assertEqual(ran.status, DONE, str(ran))

    def test_depth(self) -> None:
        sets = f"best s 500\nset {'1' * 16}\nbest b 1000\nset 1\nend best\n"
        self.answers(made.deep(15), sets, ["best", "file", "fifteen.prices"])
        self.begins_journal(made.deep(15))
        self.refused(made.deep(16), f"refused 1 24 bidders.0.tree{'.of.0' * 16}\n")

    def test_depth_of_the_second_bidder(self) -> None:
        tree = made.nested(16, made.PURCHASE)
        place = f"bidders.1.tree{'.of.0' * 16}"
        data = made.exchange(made.SELLER, {**made.BUYER, "tree": tree})
        self.refused(data, f"refused 1 24 {place}\n")

    def test_nested_json(self) -> None:
        self.refused(b"[" * 200 + b"]" * 200, "refused 1 1 -\n")
        flat = ["xor", "file"]
        self.answers(b"[" * 200 + b"]" * 200, "refused 1 1 -\n", flat)
        # 127 levels are read, and are then no exchange; the 128th is no JSON.
        self.refused(b"[" * 127 + b"]" * 127, "refused 1 2 -\n")
        self.refused(b"[" * 128 + b"]" * 128, "refused 1 1 -\n")
        self.refused(b"[" * 1_000_000, "refused 1 1 -\n")

    def test_bidders(self) -> None:
        self.begins_journal(made.crowd(40))
        self.refused(made.crowd(41), "refused 1 12 bidders.40\n")

    def test_nodes_of_a_tree(self) -> None:
        self.begins_journal(made.exchange({**made.BUYER, "tree": made.wide(199)}))
        data = made.exchange({**made.BUYER, "tree": made.wide(200)})
        self.refused(data, "refused 1 23 bidders.0.tree.of.199\n")

    def test_packages(self) -> None:
        for word, count in (("or", 200), ("xor", 200), ("or", 100), ("xor", 100)):
            output = "refused 1 23 bidders.0\n"
            self.answers(made.packages(word, count), output, ["xor", "file"])
        self.file.write_bytes(made.packages("or", 99))
        for program in programs():
            ran = program.run(["xor", self.file])
            self.assertEqual((ran.status, ran.output.count(b'"buy":"B"')), (DONE, 99), str(ran))

    def test_bids_of_a_round(self) -> None:
        full = [0] * 200
        empty: tuple[str, list[int], list[int]] = ("b", [], [])
        for data, last in (
            (made.bids(*[empty] * 400), "end open"),
            (made.bids(*[empty] * 401), "refused 2 4 bids"),
            (made.bids(("b", full, full)), "end open"),
            (made.bids(("b", [*full, 0], [])), "refused 2 4 bids.0.lo"),
            (made.bids(("b", [], [*full, 0])), "refused 2 4 bids.0.hi"),
        ):
            self.file.write_bytes(data)
            for program in programs():
                with self.subTest(last, program=str(program)):
                    ran = program.run(["run", FILES / "tightened.exchange", self.file])
                    self.assertEqual(ran.output.decode().splitlines()[-1], last)
                    self.assertEqual(ran.status, status_of(last), str(ran))

    def test_logs(self) -> None:
        self.answers(made.long_logs(), "yes 0\n", ["check", "file"])
        self.answers(made.long_logs("branch 0 0"), "no 407 fixed\n", ["check", "file"])

    def test_length_of_a_line(self) -> None:
        # 8,192 bytes without the newline are a line, if no record; the next one makes it none.
        head = b"ice 1 assign\n"
        for length in (8192, 8193):
            data = head + b"x" * length + b"\n"
            self.answers(data, "refused 1 50 2\n", ["check", "file"])

    def test_length_of_an_exchange(self) -> None:
        space = b" " * (made.EXCHANGE_BYTES - len(made.exchange(made.SELLER, made.BUYER)))
        whole = made.exchange(made.SELLER, made.BUYER) + space
        sets = "best s 500\nset 1\nbest b 1000\nset 1\nend best\n"
        self.answers(whole, sets, ["best", "file", "fifteen.prices"])
        self.refused(whole + b" ", "refused 1 61 -\n")
        self.answers(b" " * (made.EXCHANGE_BYTES + 1), "refused 1 61 -\n", ["xor", "file"])

    def test_length_of_a_round(self) -> None:
        data = made.bids(("s", [-15], [-15]))
        whole = data + b" " * (made.EXCHANGE_BYTES - len(data))
        for data, last in ((whole, "end open"), (whole + b" ", "refused 2 61 -")):
            self.file.write_bytes(data)
            for program in programs():
                ran = program.run(["run", FILES / "tightened.exchange", self.file])
                self.assertEqual(ran.output.decode().splitlines()[-1], last)
                self.assertEqual(b"submit s 1 -15 1 -15" in ran.output, data == whole)

    def test_length_of_true_values(self) -> None:
        data = made.bids(("s", [-15], [-15]), ("b", [17], [17]))
        whole = data + b" " * (made.EXCHANGE_BYTES - len(data))
        for data, last in ((whole, "end closed"), (whole + b" ", "refused 2 61 -")):
            self.file.write_bytes(data)
            for program in programs():
                with self.subTest(last, program=str(program)):
                    ran = program.run(["simulate", FILES / "two.json", self.file])
                    self.assertEqual(ran.output.decode().splitlines()[-1], last)
                    self.assertEqual(ran.status, status_of(last), str(ran))
        too_long = b" " * (made.EXCHANGE_BYTES + 1)
        self.answers(too_long, "refused 1 61 -\n", ["simulate", "file", "absent"])

    def test_length_in_line_form(self) -> None:
        whole = b"i" * made.EXCHANGE_BYTES
        self.refused(whole, "refused 1 51 1\n")
        self.answers(whole, "refused 2 51 1\n", ["best", "sale.exchange", "file"])
        long = whole + b"i"
        self.refused(long, "refused 1 61 -\n")
        self.answers(long, "refused 2 61 -\n", ["best", "sale.exchange", "file"])

    def test_length_of_a_journal(self) -> None:
        alone = [[command, "file"] for command in ("check", "migrate", "audit", "fair", "gap")]
        calls = *alone, ["statement", "file", "s"]
        self.answers(b"x" * made.JOURNAL_BYTES, "refused 1 51 1\n", *calls)
        self.answers(b"x" * (made.JOURNAL_BYTES + 1), "refused 1 61 -\n", *calls)

    @unittest.skipUnless(IS_ALL, "long: ICE_TESTS=all tries it")
    def test_work_of_long_files(self) -> None:
        # Each is answered within a room and a time that stand here, whatever it is made of.
        million = 1_000_000
        zeros = b"[" + b"0," * (made.EXCHANGE_BYTES // 2 - 2) + b"0]"
        members = b"{" + b",".join(b'"%d":0' % n for n in range(million)) + b"}"
        steps = b"ice 1 regret\n" + b"near 0\n" * (made.JOURNAL_BYTES // 7 - 2)
        rows = b"ice 1 session\n" + b"verdict accepted\n" * (made.JOURNAL_BYTES // 17 - 1)
        text = b'"' + b"x" * (16 * million) + b'"'
        for name, data, output, commands, megabytes, seconds in (
            ("zeros", zeros, "refused 1 2 -\n", ("regret", "xor"), 1000, 10),
            ("members", members, "refused 1 2 -\n", ("regret", "xor"), 1000, 10),
            ("a text", text, "refused 1 2 -\n", ("regret", "xor"), 200, 10),
            ("steps", steps, "no 2 order\n", ("check", "migrate"), 600, 60),
            ("verdicts", rows, "no 2 order\n", ("check", "migrate"), 600, 60),
        ):
            self.file.write_bytes(data)
            for program in filter(lambda made: made.keeps_to_room, programs()):
                for command in commands:
                    with self.subTest(name, command=command, program=str(program)):
                        ran = program.run([command, self.file], room=megabytes << 20, seconds=seconds)
                        self.assertEqual(ran.output.decode(), output)
                        self.assertEqual((ran.status, ran.errors), (status_of(output), b""))


if __name__ == "__main__":
    unittest.main()
