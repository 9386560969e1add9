"""The words of `bench/market`."""
import subprocess
import sys
import tempfile
import unittest
from pathlib import Path

TOP = Path(__file__).resolve().parents[2]


class Words(unittest.TestCase):
    """Wrong words end with status 1, as those of every command here."""

    def call(self, folder: str, *words: str) -> tuple[int, str]:
        """The status and standard error."""
        program = [sys.executable, str(TOP / "bench/market")]
        ran = subprocess.run(
            [*program, *words], cwd=folder, capture_output=True, text=True, check=False
        )
        return ran.returncode, ran.stderr

    def test_wrong_words(self) -> None:
        with tempfile.TemporaryDirectory() as folder:
            wrong: tuple[list[str], ...] = (
                [],
                ["slots", "9", "1", "m", "t"],
                ["slots", "1", "1", "m", "t", "--units", "0"],
                ["units", "1", "1", "m", "t", "--sellers", "20"],
            )
            for words in wrong:
                status, errors = self.call(folder, *words)
                self.assertEqual((status, errors[:5]), (1, "usage"), errors)
                self.assertEqual(list(Path(folder).iterdir()), [])

    def test_right_words(self) -> None:
        with tempfile.TemporaryDirectory() as folder:
            self.assertEqual(self.call(folder, "slots", "1", "1", "m", "t")[0], 0)
            self.assertEqual(sorted(file.name for file in Path(folder).iterdir()), ["m", "t"])


if __name__ == "__main__":
    unittest.main()
