"""Tests of the launcher's build, in a repository of seven crates and with a stand-in for the toolchain."""
from __future__ import annotations

import os
import pathlib
import re
import shutil
import signal
import subprocess
import tempfile
import time
import unittest

TESTS = pathlib.Path(__file__).resolve().parent
TOP = TESTS.parent.parent

# Two chains, ice_a to ice_d and ice_a to ice_f, below the program, and a crate that the program doesn't stand on.
CRATES = """ice_a:
ice_cli: ice_d ice_f ice_a arrayvec
ice_d: ice_c
ice_b: ice_a
ice_c: ice_b ice_a
ice_f: ice_e
ice_e: ice_a # a comment
ice_other: ice_a
"""
LIBRARIES = ".git/ice-libraries"
PROGRAM = "#!/bin/sh\necho answer \"$@\"\nexit 0\n"


def hear_signals() -> None:
    """Has the launcher hear what a caller of these tests may ignore, as nohup does: bash traps no signal that it was told to ignore."""
    for number in (signal.SIGTERM, signal.SIGINT, signal.SIGHUP):
        signal.signal(number, signal.SIG_DFL)


class Build(unittest.TestCase):
    """Each test has a checkout of its own."""

    def setUp(self) -> None:
        self.room = pathlib.Path(tempfile.mkdtemp(prefix="launch-"))
        self.addCleanup(shutil.rmtree, self.room)
        self.top = self.room / "with a space" / "checkout"
        self.top.mkdir(parents=True)
        shutil.copy(TOP / "ice", self.top)
        shutil.copytree(TOP / "launch", self.top / "launch")
        (self.top / "HANDLES").write_text("Handles allowed: none.\n")
        (self.top / "crates.txt").write_text(CRATES)
        for name in re.findall(r"(?m)^\w+", CRATES):
            for part in ("src", "specs", "proofs"):
                (self.top / "crates" / name / part).mkdir(parents=True)
            (self.top / "crates" / name / "src/lib.rt").write_text(name * 100)
        (self.top / "crates/ice_cli/src/main.rt").write_text(PROGRAM)
        subprocess.run(["git", "init", "-q", self.top], check=True)
        self.log = self.room / "log"
        self.where = {**os.environ, "PATH": f"{TESTS}/kit/bin:{os.environ['PATH']}", "RT_LOG": str(self.log), "ICE_LANES": "3"}

    def start(self, **settings: str) -> subprocess.Popen[str]:
        """Starts the launcher with these settings."""
        return subprocess.Popen(
            [str(self.top / "ice"), "one", "two words"],
            env={**self.where, **settings},
            stdout=subprocess.PIPE,
            stderr=subprocess.PIPE,
            stdin=subprocess.DEVNULL,
            text=True,
            preexec_fn=hear_signals,
        )

    def launch(self, **settings: str) -> tuple[int, str, str]:
        """The status of the launcher, and what it wrote."""
        started = self.start(**settings)
        out, err = started.communicate(timeout=120)
        return started.returncode, out, err

    def await_crate(self, name: str, started: subprocess.Popen[str]) -> None:
        """Waits until rattle works in a crate."""
        for _ in range(400):
            if self.log.exists() and name in self.log.read_text():
                return
            if started.poll() is not None:
                break
            time.sleep(0.05)
        started.kill()
        self.fail(f"{name} was not begun: {started.communicate()}")

    def runs(self) -> list[list[str]]:
        """The crate and the jobs of each run of rattle since this was last asked."""
        lines = self.log.read_text().splitlines() if self.log.exists() else []
        self.log.unlink(missing_ok=True)
        return [line.split() for line in lines]

    def proved(self) -> set[str]:
        """The crates whose library the checkout has."""
        return {made.stem for made in self.top.glob(f"{LIBRARIES}/*.sum")}

    def is_clean(self) -> None:
        """Nothing is left of what is being made."""
        self.assertEqual([*self.top.rglob("new-*")], [])

    def test_builds_side_by_side(self) -> None:
        status, out, err = self.launch(RT_SECONDS="0.3")
        self.assertEqual((status, out), (0, "answer one two words\n"))
        runs = self.runs()
        self.assertEqual({run[0] for run in runs}, {"ice_a", "ice_b", "ice_c", "ice_d", "ice_e", "ice_f", "ice_cli"})
        self.assertEqual(len(runs), 7)
        jobs = dict(runs)
        self.assertEqual([jobs[name] for name in ("ice_a", "ice_b", "ice_e", "ice_cli")], ["3", "1", "2", "3"])
        self.assertEqual(len(re.findall(r"(?m)^ice: \d of 7, \w+ \(0 min \d\d s so far, .* to go\)$", err)), 7)
        self.assertRegex(err, r"\Aice: proving and building the program's 7 crates, 3 at a time: ")
        self.assertNotIn("linked", err)
        self.assertRegex(err, r"\nice: built in 0 min \d\d s\n\Z")
        self.is_clean()
        self.assertEqual(self.launch()[2], "")
        self.assertEqual(self.runs(), [])

    def test_one_lane_has_one_job(self) -> None:
        self.assertEqual(self.launch(ICE_LANES="1")[0], 0)
        self.assertEqual({run[1] for run in self.runs()}, {"1"})

    def test_what_was_killed_is_tried_once_more(self) -> None:
        self.assertEqual(self.launch(RT_KILLED="ice_d")[0], 0)
        self.assertEqual([run for run in self.runs() if run[0] == "ice_d"][-1], ["ice_d", "1"])

    def test_nothing_changed(self) -> None:
        self.launch()
        self.runs()
        program = self.top / "crates/ice_cli/out/ice_cli"
        was = program.stat().st_ino
        (self.top / "crates.txt").touch()
        status, out, _ = self.launch()
        self.assertEqual((status, out), (0, "answer one two words\n"))
        self.assertEqual(self.runs(), [])
        self.assertEqual(program.stat().st_ino, was)
        self.assertEqual(self.launch()[2], "")
        program.unlink()
        self.assertEqual(self.launch()[:2], (0, "answer one two words\n"))
        self.assertEqual([run[0] for run in self.runs()], ["ice_cli"])

    def test_what_changed_and_what_is_above_it_is_built(self) -> None:
        self.launch()
        self.runs()
        (self.top / "crates/ice_c/proofs/More.antt").write_text("a lemma")
        self.assertEqual(self.launch()[0], 0)
        self.assertEqual(sorted(run[0] for run in self.runs()), ["ice_c", "ice_cli", "ice_d"])

    def test_a_proof_fails_and_the_next_build_goes_on(self) -> None:
        status, out, err = self.launch(RT_FAIL="ice_d", RT_SECONDS="0.2")
        self.assertEqual((status, out), (70, ""))
        self.assertIn("\nthis proof fails\nice: ice_d could not be built: rattle ended with status 1, after the lines above; ", err)
        self.is_clean()
        done = self.proved()
        self.assertGreaterEqual(done, {"ice_a", "ice_b", "ice_c"})
        self.runs()
        self.assertEqual(self.launch()[0], 0)
        self.assertEqual({run[0] for run in self.runs()} & done, set())

    def test_signals_end_it_and_keep_what_was_done(self) -> None:
        for number in (signal.SIGTERM, signal.SIGINT, signal.SIGHUP):
            shutil.rmtree(self.top / LIBRARIES, ignore_errors=True)
            self.runs()
            started = self.start(RT_SLOW="ice_b ice_e")
            self.await_crate("ice_e", started)
            started.send_signal(number)
            began = time.monotonic()
            out, _ = started.communicate(timeout=60)
            self.assertEqual((started.returncode, out), (128 + number, ""))
            self.assertLess(time.monotonic() - began, 20)
            self.is_clean()
            self.assertIn("ice_a", self.proved())
            time.sleep(0.2)
            beside = subprocess.run(["ps", "-eo", "args"], stdout=subprocess.PIPE, text=True, check=True).stdout
            self.assertNotIn(f"{TESTS}/kit/bin/rattle", beside)
        self.assertEqual(self.launch()[0], 0)

    def test_of_two_launchers_one_builds(self) -> None:
        both = [self.start(RT_SECONDS="0.3") for _ in range(2)]
        ends = [(*it.communicate(timeout=120), it.returncode) for it in both]
        self.assertEqual([(out, status) for out, _, status in ends], [("answer one two words\n", 0)] * 2)
        self.assertEqual(len(self.runs()), 7)
        said = sorted(err for _, err, _ in ends)
        self.assertEqual(said[0], "ice: another run builds the program; waiting for it\n")
        self.assertIn("ice: built in", said[1])

    def test_what_a_killed_launcher_left_is_removed(self) -> None:
        started = self.start(RT_SECONDS="1")
        self.await_crate("ice_e", started)
        started.kill()
        started.communicate()
        self.assertNotEqual([*self.top.glob(f"{LIBRARIES}/new-*")], [])
        time.sleep(1.5)
        self.assertEqual(self.launch()[0], 0)
        self.is_clean()

    def test_without_a_git_folder(self) -> None:
        shutil.rmtree(self.top / ".git")
        self.assertEqual(self.launch()[0], 0)
        self.assertTrue((self.top / "crates/ice_cli/out/ice-libraries/ice_a.sum").exists())
        self.is_clean()

    def test_what_changes_during_a_build_is_built_the_next_time(self) -> None:
        started = self.start(RT_SECONDS="0.3")
        self.await_crate("ice_e", started)
        (self.top / "crates/ice_a/src/lib.rt").write_text("changed")
        started.communicate(timeout=120)
        self.runs()
        self.assertIn("ice: built in", self.launch()[2])
        self.assertEqual(len(self.runs()), 7)
        self.assertEqual(self.launch()[2], "")

    def test_no_toolchain(self) -> None:
        folder = self.room / "bin"
        folder.mkdir()
        for name in ("bash", "readlink", "dirname", "find", "flock"):
            (folder / name).symlink_to(str(shutil.which(name)))
        status, out, err = self.launch(PATH=str(folder))
        self.assertEqual((status, out), (70, ""))
        self.assertIn("the toolchain's command rt isn't on the PATH", err)


if __name__ == "__main__":
    unittest.main()
