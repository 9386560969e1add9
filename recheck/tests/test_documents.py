"""What the documents print of `check`: the examples, and the journals that are damaged there."""
import importlib.machinery
import importlib.util
import re
import shutil
import tempfile
import unittest
from pathlib import Path
from types import ModuleType

from support import COMMAND, PROGRAM, ROOT, answer, needs_program

REPLAY = ROOT / "docs" / "replay"
EXAMPLES = {
    "airport": "yes 855",
    "airport-regret": "yes 0",
    "hall": "yes 40",
    "hall-regret": "yes 10",
    "hall-session": "yes 0 0/1",
    "spectrum": "yes 770",
    "spectrum-regret": "yes 120",
    "transmission": "yes 3850",
    "transmission-regret": "yes 400",
    "season-session": "yes 32 0/1",
    "packages-session": "yes 0 0/1",
    "sample": "yes 10",
    "regret": "yes 0",
}
DAMAGED = (
    ("sample", r"^good A$", "good A ", "refused 1 50 3"),
    ("sample", r"$", "\r", "refused 1 50 1"),
    ("sample", r"^set 1$", "set 0", "yes 0"),
    ("sample", r"^bidder b 0$", "bidder s 0", "no 7 exchange"),
    ("hall", r"^set 000$", "set 111", "no 29 excess"),
    ("hall-regret", r"^leaf 2560 2880 640$", "leaf 2560 2560 640", "no 32 above"),
    ("hall-regret", r"^dead 1$", "dead 2", "no 35 alive"),
    ("hall-regret", r"^regret 10$", "regret 0", "no 45 regret"),
)


def example(name: str) -> str:
    """The text of an example."""
    return (ROOT / "examples" / f"{name}.journal").read_text()


class Examples(unittest.TestCase):
    """The numbers of examples/README.md, and the damages of the documents."""

    def test_examples(self) -> None:
        there = {file.stem for file in (ROOT / "examples").glob("*.journal")}
        self.assertEqual(there, EXAMPLES.keys())
        for name, line in EXAMPLES.items():
            self.assertEqual(answer(example(name)), (line, 0), name)

    def test_damaged(self) -> None:
        for name, old, new, line in DAMAGED:
            lines = example(name).splitlines()
            text = "".join(f"{re.sub(old, new, each)}\n" for each in lines)
            self.assertEqual(answer(text)[0], line, (name, new))


@needs_program
@unittest.skipUnless(REPLAY.exists() and shutil.which("jq"), "docs/replay or jq isn't here")
class Replayed(unittest.TestCase):
    """Every command of the documents that checks a journal, with this checker in its place."""

    def test_commands(self) -> None:
        loader = importlib.machinery.SourceFileLoader("replay", str(REPLAY))
        spec = importlib.util.spec_from_loader("replay", loader)
        assert spec is not None
        replay = importlib.util.module_from_spec(spec)
        loader.exec_module(replay)
        count = 0
        for name in replay.DOCUMENTS:
            commands = replay.commands_of(ROOT / name)
            printed = self.printed(replay, commands)
            for (line, text, wanted), got in zip(commands, printed):
                if "ice check" in " ".join(text):
                    count += 1
                    with self.subTest(f"{name}:{line}"):
                        self.assertTrue(replay.agree(wanted, got), (text, wanted, got))
        self.assertGreater(count, 20)

    def printed(self, replay: ModuleType, commands: list[tuple[int, list[str], list[str]]]) -> list[list[str]]:
        """What the commands print, where `ice check` is this checker and all else the program."""
        with tempfile.TemporaryDirectory() as made:
            room = Path(made)
            folder = room / "clone"
            folder.mkdir()
            for part in ("docs", "examples"):
                shutil.copytree(ROOT / part, folder / part)
            launcher = folder / "ice"
            launcher.write_text(
                "#!/bin/sh\n"
                f'[ "$1" = check ] || exec {PROGRAM} "$@"\n'
                f'shift\nexec {COMMAND} "$@" 2>/dev/null\n'
            )
            launcher.chmod(0o755)
            printed: list[list[str]] = replay.printed_by(commands, folder, room)
            return printed


if __name__ == "__main__":
    unittest.main()
