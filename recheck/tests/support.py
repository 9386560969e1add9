"""What the tests share: journals, those that stand in other tests, and the program."""
from __future__ import annotations

import os
import re
import subprocess
import sys
import tempfile
import unittest
from pathlib import Path

HERE = Path(__file__).resolve().parent
ROOT = HERE.parents[1]
COMMAND = HERE.parent / "ice-recheck"
sys.dont_write_bytecode = True
sys.path.insert(0, str(HERE.parent))

from ice_recheck.journals import Answer, check, gap  # noqa: E402

JUDGES = {"check": check, "gap": gap}

JOURNALS = [
    file
    for place in ("examples/*.journal", "page/tests/samples/*", "tests/files/*")
    for file in sorted(ROOT.glob(place))
    if file.suffix in (".journal", ".session", ".regret", ".assign")
]
HEAD = re.compile(r"\s*ice [12] (assign|regret|session)\b")
OF_VERSION_3 = re.compile(rb"^ice 3 (regret|session)$", re.MULTILINE)
LITERAL = re.compile(r'"((?:[^"\\]|\\.)*)"', re.DOTALL)
ARRAY = re.compile(rf"\[\s*((?:{LITERAL.pattern}\s*,?\s*)+)\]", re.DOTALL)
CHANGE = re.compile(rf"\(\s*(\d+),\s*{LITERAL.pattern}", re.DOTALL)


def answer(journal: str) -> tuple[str, int]:
    """The answer to a journal: its line and status."""
    judged = check(journal.encode("latin-1"))
    return judged.line, judged.status


def find_program() -> str | None:
    """The built program: the first of ICE_PROGRAMS, that of this clone, or of a release folder."""
    named = os.environ.get("ICE_PROGRAMS", "").split(":")[0]
    is_clone = (ROOT / "crates").is_dir()
    program = Path(named or ROOT / ("crates/ice_cli/out/ice_cli" if is_clone else "ice"))
    return str(program.resolve()) if os.access(program, os.X_OK) else None


PROGRAM = find_program()
needs_program = unittest.skipUnless(
    PROGRAM, "no built program is here: `./ice` builds one, or ICE_PROGRAMS names it"
)


def is_read_by_program(journal: bytes) -> bool:
    """Whether the program reads each line as it is read here: not yet what is of version 3 alone."""
    return OF_VERSION_3.search(journal) is None


def answer_of_program(journal: bytes, command: str = "check") -> Answer:
    """The program's answer to a journal, by `check` or by `gap`."""
    assert PROGRAM is not None
    ran = subprocess.run(
        [PROGRAM, command, "/dev/stdin"], input=journal, stdout=subprocess.PIPE, check=False
    )
    return Answer(ran.stdout.decode().removesuffix("\n"), ran.returncode)


def unescaped(literal: str) -> str:
    """The text that a literal of a crate's test stands for."""
    literal = re.sub(r"\\\n\s*", "", literal)
    return literal.replace("\\n", "\n").replace('\\"', '"').replace("\\\\", "\\")


def sources() -> list[str]:
    """The texts of the crates' files."""
    return [file.read_text() for file in sorted(ROOT.glob("crates/*/src/*.rt"))]


def lists_of_lines(source: str) -> list[list[str]]:
    """The lists of lines in a crate's file that are journals."""
    arrays = (LITERAL.findall(found[0]) for found in ARRAY.findall(source))
    lists = ([unescaped(text) for text in literals] for literals in arrays)
    return [lines for lines in lists if HEAD.fullmatch(lines[0])]


def changed(lines: list[str], place: int, text: str) -> str:
    """The journal of these lines, with another text in the place of a line, from 1, or of none."""
    return "".join(
        text if number == place else f"{line}\n" for number, line in enumerate(lines, 1)
    )


def judged_in_tables(command: str = "check") -> list[tuple[str, bytes, tuple[str, ...], int]]:
    """The rows of the program's own tests in which one file is judged by this command.

    Each has a name, the file's bytes, the outputs of which one is due, and the status. There are
    none where those tests aren't, or where Python is older than they want. Rows of version 3, which
    the program doesn't read yet, are left out.
    """
    if sys.version_info < (3, 11) or not (ROOT / "tests" / "harness").is_dir():
        return []
    sys.path.append(str(ROOT / "tests"))
    from harness import cases

    found = []
    for case in (case for table in cases.tables() for case in cases.table(table)):
        with tempfile.TemporaryDirectory() as folder:
            words = case.lay(Path(folder))
            file = Path(folder, words[-1] if words else "")
            is_check = len(words) == 2 and words[0] == command and file.is_file()
            if is_check and case.write is None and case.due.outputs:
                journal = file.read_bytes()
                if is_read_by_program(journal):
                    found.append((case.name, journal, case.due.outputs, case.due.status))
    return found


def rows() -> list[bytes]:
    """Every journal in other tests: texts, lists of lines and all changes of these, and tables."""
    found: list[str] = []
    for source in sources():
        texts = [unescaped(text) for text in LITERAL.findall(source)]
        found += [text for text in texts if HEAD.match(text) and "\n" in text.strip()]
        changes = [(int(place), unescaped(text)) for place, text in CHANGE.findall(source)]
        for lines in lists_of_lines(source):
            found += [changed(lines, place, text) for place, text in [(0, ""), *changes]]
    journals = {text.lstrip("\n").encode() for text in found}
    judged = [row for command in JUDGES for row in judged_in_tables(command)]
    return sorted(journals | {journal for _, journal, _, _ in judged})
