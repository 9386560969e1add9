"""A round in one command: what it makes, what it says, and that it leaves all where it stops."""
import fcntl
import hashlib
import json
import os
import pty
import re
import shutil
import signal
import struct
import subprocess
import sys
import termios
import time
import unittest

from support import NAMES, PROGRAM, SEASON, TOP, Desk, fronts

from ice_page.statement_command import statement_of

ROUND = TOP / "desk" / "ice-round"
FRONT = re.compile(r"(front|whole) (\d+) (\d+) ([0-9a-f]{64})")


class Rounds(Desk):
    """The season, round by round."""

    def test_the_first_call_opens_the_session(self) -> None:
        status, output, errors = self.round()
        self.assertEqual((status, errors), (9, ""))
        wanted = {"market.json", "market.journal", "market.html", "market-public.html", "published"}
        files, kinds = self.files(), ("html", "statement")
        self.assertEqual(set(files), wanted | {f"{name}-0.{kind}" for name in NAMES for kind in kinds})
        for name in NAMES:
            due = statement_of(str(self.folder / "market.journal"), name)
            self.assertEqual((files[f"{name}-0.statement"], due[-9:]), (due, b"end open\n"))
        self.assertIn("to send to each bidder: NAME-0.statement and NAME-0.html\n", output)
        self.assertIn("open: round 1: bids are awaited", output)
        self.assertIn("  price of arr-1830 117.5 (235/2)\n", output)
        self.assertIn("  regret 705\n", output)
        self.assertIn("bids of round 1 into bids-1/", output)

    def test_the_whole_session(self) -> None:
        self.open()
        for number, status in ((1, 9), (2, 9), (3, 0)):
            self.bids_come(number)
            self.assertEqual(self.round()[0], status)
            there = set(self.files())
            self.assertLessEqual({f"round-{number}.json", f"aside-{number}.json"}, there)
            if status:
                self.assertLessEqual({f"{name}-{number}.html" for name in NAMES}, there)
        files = self.files()
        self.assertEqual(files["market.journal"], SEASON.read_bytes())
        for name in NAMES:
            self.assertIn(f"\npayment {name} ", files[f"{name}.statement"].decode())
            self.assertIn(">yes<", files[f"{name}.html"].decode())
            self.assertNotIn(f"{name}-3.html", files)
        self.assertIn("tables/payments.csv", files)
        self.assertFalse([name for name in files if name.startswith(".")])

    def test_digests_are_those_of_the_journals_fronts(self) -> None:
        self.test_the_whole_session()
        journal = SEASON.read_bytes()
        lines = (self.folder / "published").read_text().splitlines()
        found = [match.groups() for match in map(FRONT.fullmatch, lines) if match]
        self.assertEqual(len(found), len(lines))
        self.assertEqual([each[:2] for each in found][:3], [("front", str(n)) for n in range(3)])
        self.assertEqual(found[3][:2], ("whole", "3"))
        for _, _, size, digest in found:
            self.assertEqual(hashlib.sha256(journal[: int(size)]).hexdigest(), digest)

    def test_what_changed_is_said(self) -> None:
        self.open()
        self.bids_come(1)
        _, output, _ = self.round()
        self.assertIn("  12 bids, 5 accepted\n", output)
        self.assertIn("  regret 705 before, 114 now\n", output)
        self.assertIn("  price of arr-2215 45 before, 40.5 (81/2) now\n", output)
        self.assertIn("refused: Meridian: 40 loosened a bound at node 1; another bid", output)
        self.assertIn("no bid came of Caledonian-Express, Transcontinental", output)
        self.assertIn("190 of it with Polar-Cargo. So Polar-Cargo, Charter-Sud and", output)

    def test_what_is_put_aside_is_said(self) -> None:
        self.open()
        for number in (1, 2):
            self.bids_come(number)
            _, output, _ = self.round()
        self.assertIn("put aside: verdict 45: the market has no bidder `Northern-Airway`", output)
        aside = json.loads((self.folder / "aside-2.json").read_text())["aside"]
        self.assertEqual(len(aside), 2)
        self.assertEqual(len(json.loads((self.folder / "round-2.json").read_text())["bids"]), 12)

    def test_the_same_call_again_changes_nothing(self) -> None:
        self.open()
        self.bids_come(1)
        self.round()
        before = self.files()
        self.assertEqual(self.round()[0], 9)
        self.assertEqual(self.files(), before)

    def test_by_hand_between(self) -> None:
        """Whoever makes the round file by hand, or the journal too, goes on as before."""
        self.open()
        shutil.copy(SEASON.parent / "season-round-1.json", self.folder / "round-1.json")
        self.assertEqual(self.round()[0], 9)
        self.assertNotIn("aside-1.json", self.files())
        self.bids_come(2)
        self.assertEqual(self.round()[0], 9)
        self.assertIn("round-2.json", self.files())

    def test_a_round_with_no_bid(self) -> None:
        self.open()
        self.assertEqual(self.round()[0], 9)
        self.assertNotIn("round-1.json", self.files())
        self.round("--empty")
        self.assertEqual(json.loads(self.files()["round-1.json"]), {"bids": []})

    def test_a_trial_writes_nothing(self) -> None:
        self.open()
        self.bids_come(1)
        before = self.files()
        status, output, _ = self.round("--try")
        self.assertEqual(status, 9)
        self.assertEqual(self.files(), before)
        self.assertIn("12 bids, 5 accepted", output)
        # Nothing of it may tell what only the next round begins with.
        self.assertNotIn("114", output)
        self.assertNotIn("price", output)

    def test_a_late_bid_is_named(self) -> None:
        self.open()
        self.bids_come(1)
        self.assertNotIn("other bids", self.round()[1])
        bid = self.folder / "bids-1" / "1000-Airport-Coordination.json"
        shutil.copy(bid, bid.with_name("1900-Airport-Coordination.json"))
        self.assertIn("bids-1 has other bids than round-1.json", self.round()[1])

    def test_coins_and_words_for_pages(self) -> None:
        self.bids_come(1)
        self.round("--title=Slots & more", "--unit=k€")
        self.assertIn("Slots &amp; more", self.files()["Meridian-0.html"].decode())
        self.assertIn("Slots &amp; more", self.files()["market-public.html"].decode())
        for number in (1, 2, 3):
            self.bids_come(number)
            self.round("--coins=100")
        self.assertIn("coins", self.files()["tables/payments.csv"].decode().splitlines()[0])
        self.assertIn("in whole coins", self.files()["Meridian.html"].decode())

    def test_full_names_from_right_to_left(self) -> None:
        name = "\u05e2\u05e8\u05d1"
        (self.folder / "names.csv").write_text(f"name,full name\narr-2215,{name}\n")
        self.assertEqual(self.round("--names=names.csv")[0], 9)
        for page in ("market.html", "market-public.html", "Meridian-0.html"):
            text = self.files()[page].decode()
            self.assertGreater(text.count(name), 1)
            self.assertEqual(text.count(name), text.count(f"\u2068{name}\u2069"), page)

    def test_salted_digests(self) -> None:
        (self.folder / "salt").write_bytes(bytes(range(32)))
        self.round("--salt=salt")
        _, _, size, digest, salted = (self.folder / "published").read_text().split()
        front = SEASON.read_bytes()[: int(size)]
        self.assertEqual(hashlib.sha256(bytes(range(32)) + front).hexdigest(), digest)
        self.assertEqual(salted, "salted")


class Stops(Desk):
    """It stops at the first thing that is wrong, and all is as it was."""

    def stops(self, status: int, words: str, *options: str, **settings: str) -> None:
        """Tests that a call stops so, and that no file is another one."""
        before = self.files()
        found, output, errors = self.round(*options, **settings)
        self.assertEqual((found, output), (status, ""), errors)
        self.assertIn(words, errors)
        self.assertIn("all files are as they were", errors)
        self.assertEqual(self.files(), before)

    def test_the_checker_says_no(self) -> None:
        self.open()
        self.bids_come(1)
        last = fronts(SEASON.read_text())[1].count("\n")
        wanted = f"ice check says `no 7 value`, where `no {last} closed` is due"
        self.stops(3, wanted, WRONG="1")

    def test_the_audit_says_another_payment(self) -> None:
        """The stand-in takes each payment from the statement, so here it is told a wrong one."""
        self.open()
        for number in (1, 2):
            self.bids_come(number)
            self.round()
        self.bids_come(3)
        self.stops(3, "Meridian.statement: ice audit says `yes 7`", AUDIT="yes 7")

    def test_the_run_is_refused(self) -> None:
        self.open()
        self.bids_come(1)
        self.stops(2, "ice: it is stopped", STATUS="2")

    def test_the_branches_are_used_up(self) -> None:
        self.open()
        before = self.files()
        status, _, errors = self.round(STATUS="4")
        self.assertEqual(status, 4)
        self.assertIn("what was found stands in market-stopped.journal", errors)
        after = self.files()
        self.assertEqual(after.pop("market-stopped.journal"), b"ice 2 session\n")
        self.assertEqual(after, before)

    def test_a_digest_that_does_not_hold(self) -> None:
        self.open()
        listed = self.folder / "published"
        text = listed.read_text()
        listed.write_text(text[:-3] + ("00\n" if text[-3:-1] != "00" else "11\n"))
        self.bids_come(1)
        self.stops(3, "digests that were published don't hold:\nice-round: other front 0")

    def test_no_digests_stand_there(self) -> None:
        self.open()
        (self.folder / "published").write_text("front 0\n")
        self.stops(2, "line 1 is no digest")

    def test_a_gap_in_the_rounds(self) -> None:
        self.open()
        (self.folder / "round-2.json").write_text('{"bids": []}')
        self.stops(2, "round-2.json is there, and round-1.json isn't")

    def test_no_market(self) -> None:
        (self.folder / "market.json").write_text("{}")
        self.stops(2, "the member `settings` is missing")
        (self.folder / "market.json").unlink()
        self.stops(6, "No such file")

    def test_names_of_files_that_fall_together(self) -> None:
        """A bidder of the market's name would have the operator's page for its own at the end."""
        market = self.folder / "market.json"
        market.rename(self.folder / "meridian.json")
        for number in range(4):
            if number:
                self.bids_come(number)
            before = self.files()
            status, _, errors = self.round(market="meridian.json")
            if number == 3:
                self.assertEqual((status, self.files()), (2, before))
                self.assertIn("Meridian.html and meridian.html would be one file", errors)

    def test_a_folder_in_the_place_of_a_page(self) -> None:
        """What was put into place before is put back."""
        self.open()
        self.bids_come(1)
        (self.folder / "Polar-Cargo-1.html").mkdir()
        self.stops(7, "Polar-Cargo-1.html")

    def test_two_at_once(self) -> None:
        with (self.folder / "market.json").open() as stream:
            fcntl.flock(stream, fcntl.LOCK_EX)
            self.stops(2, "another ice-round works on market.json")

    def test_an_interrupt(self) -> None:
        slow = self.folder / "slow"
        slow.write_text("#!/bin/sh\ntouch begun\nexec sleep 60\n")
        slow.chmod(0o755)
        words = [sys.executable, str(ROUND), "market.json", "--program=slow"]
        process = subprocess.Popen(words, cwd=self.folder, stderr=subprocess.PIPE, text=True)
        for _ in range(400):
            if (self.folder / "begun").exists():
                break
            time.sleep(0.05)
        process.send_signal(signal.SIGTERM)
        _, errors = process.communicate(timeout=30)
        self.assertEqual(process.returncode, 128 + signal.SIGTERM)
        self.assertIn("interrupted", errors)
        self.assertEqual(set(self.files()), {"market.json", "slow", "begun"})

    def test_a_table_of_names_that_is_none(self) -> None:
        self.open()
        self.bids_come(1)
        (self.folder / "names.csv").write_text("name,full name\nMeridian,\n")
        wanted = "ice-round: ice-page: names.csv: line 2: a name and a full name are due\n"
        self.stops(2, wanted, "--names=names.csv")

    def test_control_characters_are_spelled_out(self) -> None:
        self.open()
        self.bids_come(1)
        bid = {"bidder": "a\u001b]0;x\u0007\u202e", "lo": [], "hi": []}
        (self.folder / "bids-1" / "1900-a\u001b[2J.json").write_text(json.dumps(bid))
        _, output, errors = self.round()
        self.assertIn("put aside", output)
        self.assertTrue(all(each.isprintable() or each == "\n" for each in output + errors))

    def test_words(self) -> None:
        before = self.files()
        for words in (["--coins=0"], ["--unknown"], ["one", "two"]):
            self.assertEqual(self.round(*words)[0], 1)
        self.assertEqual(self.files(), before)

    def test_a_full_output(self) -> None:
        with open("/dev/full", "w", encoding="utf-8") as full:
            words = [sys.executable, str(ROUND), "market.json", PROGRAM]
            ran = subprocess.run(words, stdout=full, stderr=subprocess.PIPE, cwd=self.folder, env=self.where, check=False)
        self.assertEqual(ran.returncode, 7)
        self.assertTrue(os.path.exists(self.folder / "published"))


class OnATerminal(Desk):
    """A line on the terminal says which step it is at, and leaves nothing there."""

    def on_terminal(self, *words: str, columns: int = 80) -> tuple[int, str, str]:
        """Holds a round whose standard error is a terminal: the status, output, and what it got."""
        terminal, its_end = pty.openpty()
        fcntl.ioctl(its_end, termios.TIOCSWINSZ, struct.pack("HHHH", 24, columns, 0, 0))
        process = subprocess.Popen(
            [sys.executable, ROUND, "market.json", *(words or (PROGRAM,))],
            cwd=self.folder,
            env=self.where,
            stdin=subprocess.DEVNULL,
            stdout=subprocess.PIPE,
            stderr=its_end,
        )
        os.close(its_end)
        got = b""
        try:
            while part := os.read(terminal, 4096):
                got += part
        except OSError:  # nobody has the other end any more
            pass
        os.close(terminal)
        output = process.communicate()[0].decode()
        return process.returncode, output, got.decode()

    def shown(self, got: str) -> list[str]:
        """The lines that stood on the terminal, one over the other."""
        self.assertNotIn("\x1b", got)
        return [line.rstrip() for line in got.split("\r") if line.strip()]

    def test_each_step_is_named(self) -> None:
        self.open()
        self.bids_come(1)
        status, output, got = self.on_terminal()
        self.assertEqual(status, 9)
        self.assertIn("to publish:", output)
        self.assertNotIn("of 5", output)
        steps = (
            "1 of 5, collecting the bids of round 1",
            "2 of 5, running the session with 1 round",
            "3 of 5, checking market.journal",
            "4 of 5, comparing the digests",
            "5 of 5, making pages",
            "5 of 5, making pages: Meridian-1.html",
        )
        shown = [line for line in self.shown(got) if " s" not in line.partition(", ")[2][-5:]]
        found = [line for line in shown if line.removeprefix("ice-round: ") in steps]
        self.assertEqual(found, [f"ice-round: {step}" for step in steps])

    def test_nothing_of_it_is_left(self) -> None:
        """What is written last blanks the whole of what was written before it."""
        _, _, got = self.on_terminal()
        *_, before, blank, end = got.split("\r")
        self.assertEqual((blank, end), (" " * len(before.rstrip()), ""))
        self.assertNotIn("\n", got)

    def test_a_long_run_says_how_long_and_what_its_program_said(self) -> None:
        slow = self.folder / "slow"
        slow.write_text("#!/bin/sh\necho first >&2\necho 'ice: 3 of 90' >&2\nsleep 2\nexit 2\n")
        slow.chmod(0o755)
        status, _, got = self.on_terminal("--program=slow")
        self.assertEqual(status, 2)
        line = "ice-round: 2 of 5, running the session with 0 rounds: [1-9] s, ice: 3 of 90"
        self.assertRegex("\n".join(self.shown(got)), line)
        # And what is wrong stands on lines of its own.
        self.assertIn("\rice-round: first\r\nice-round: ice: 3 of 90\r\nice-round: stopped", got)

    def test_a_narrow_terminal(self) -> None:
        _, _, got = self.on_terminal(columns=30)
        lines = self.shown(got)
        self.assertIn("ice-round: 2 of 5, running th", lines)
        self.assertLess(max(map(len, lines)), 30)

    def test_a_trial_makes_no_pages(self) -> None:
        self.open()
        self.bids_come(1)
        _, _, got = self.on_terminal(PROGRAM, "--try")
        last = "ice-round: 4 of 4, comparing the digests"
        self.assertEqual([line for line in self.shown(got) if "4 of" in line], [last])


if __name__ == "__main__":
    unittest.main()
