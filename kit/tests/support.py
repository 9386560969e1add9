"""What the tests share: the kit's logic run by node, and the statements of all sessions here."""
from __future__ import annotations

import base64
import importlib.machinery
import importlib.util
import json
import os
import shutil
import subprocess
import sys
import tempfile
import unittest
from pathlib import Path
from typing import Any, BinaryIO, Iterable, cast

HERE = Path(__file__).resolve().parent
KIT = HERE.parent
ROOT = KIT.parent
sys.dont_write_bytecode = True
sys.path[:0] = [str(ROOT / "page"), str(ROOT / "recheck"), str(ROOT / "recheck/tests")]

from ice_page.lines import BadJournal  # noqa: E402
from ice_page.statement_command import Kept  # noqa: E402
from ice_page.statements import Watched, write_statements  # noqa: E402

NODE = shutil.which("node")
needs_node = unittest.skipUnless(NODE, "no node is installed: apt-get install nodejs")


def found_program() -> str | None:
    """The built program: the first of ICE_PROGRAMS, that of this clone, or of a release folder."""
    named = os.environ.get("ICE_PROGRAMS", "").split(":")[0]
    is_clone = (ROOT / "crates").is_dir()
    program = Path(named or ROOT / ("crates/ice_cli/out/ice_cli" if is_clone else "ice"))
    return str(program.resolve()) if os.access(program, os.X_OK) else None


PROGRAM = found_program()
needs_program = unittest.skipUnless(
    PROGRAM, "no built program is here: `./ice` builds one, or ICE_PROGRAMS names it"
)


def loaded_join() -> Any:
    """The script that joins the kit, as a module."""
    loader = importlib.machinery.SourceFileLoader("join", str(KIT / "join"))
    spec = importlib.util.spec_from_loader("join", loader)
    assert spec is not None
    module = importlib.util.module_from_spec(spec)
    loader.exec_module(module)
    return module


join = loaded_join()


def asked(questions: Iterable[dict[str, Any]]) -> list[Any]:
    """What the kit's logic answers to each of these questions."""
    assert NODE is not None
    source = '"use strict";\n' + join.scripts(join.CORE) + (HERE / "ask.js").read_text()
    lines = "".join(json.dumps(question) + "\n" for question in questions)
    with tempfile.TemporaryDirectory() as folder:
        script = Path(folder, "ask.js")
        script.write_text(source, encoding="utf-8")
        ran = subprocess.run(
            [NODE, str(script)], input=lines.encode(), stdout=subprocess.PIPE, check=True
        )
    return [json.loads(line) for line in ran.stdout.splitlines()]


def encoded(content: bytes) -> str:
    """Bytes in base 64."""
    return base64.b64encode(content).decode()


def statements(journal: bytes) -> dict[str, bytes]:
    """The statements of a session's bidders; none where it neither closed nor waits for bids."""
    found: dict[str, Kept] = {}
    with tempfile.TemporaryFile() as stream:
        stream.write(journal)
        stream.seek(0)
        try:
            write_statements(Watched(cast(BinaryIO, stream)), lambda name: found.setdefault(name, Kept()))
        except BadJournal:
            return {}
    return {name: bytes(kept.data) for name, kept in found.items()}


def awaited(journal: bytes, settlement: int) -> bytes | None:
    """A session as it stood before the bids behind a settlement; None where none follows."""
    place = journal.find(b"\nsettle %d\n" % settlement)
    bids = journal.find(b"\nsubmit ", place)
    after = journal.find(b"\nsettle %d\n" % (settlement + 1), place)
    if place < 0 or bids < 0 or 0 <= after < bids:
        return None
    return journal[: bids + 1] + b"end open\n"


def so_far(journal: bytes, settlement: int) -> bytes:
    """The same of a session that awaited bids then."""
    found = awaited(journal, settlement)
    assert found is not None
    return found


def sessions() -> list[bytes]:
    """All sessions here: of the examples and of the tests of pages, and each as it awaited a round."""
    files = [*ROOT.glob("examples/*.journal"), *ROOT.glob("page/tests/samples/*")]
    found = []
    for journal in (file.read_bytes() for file in sorted(files)):
        found.append(journal)
        found += [each for number in range(3) if (each := awaited(journal, number)) is not None]
    return found


def all_statements() -> list[bytes]:
    """The statements of all these sessions, each once."""
    return sorted({text for journal in sessions() for text in statements(journal).values()})
