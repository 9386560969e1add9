#!/usr/bin/env python3
"""Compares the second opinion with the program on damaged journals, which are drawn from seeds.

    recheck/tests/mutants.py [COUNT [FIRST]]

makes COUNT mutants, 2,000 where nothing is said, of the seeds from FIRST on, which is 0. The status
is 1 where an answer differs; then the journals are kept, in a folder that is named. What other
tests hold, and the examples, are the journals that are damaged, of each kind and in versions 1 and
2. The program doesn't read version 3 yet: mutants that have its head are left out. The second
opinion in Python and that in the browser are compared on version 3.
"""
from __future__ import annotations

import random
import re
import sys
import tempfile
from collections.abc import Callable
from concurrent.futures import ThreadPoolExecutor
from functools import cache
from pathlib import Path

import derived
from support import (
    JOURNALS,
    JUDGES,
    PROGRAM,
    answer_of_program,
    is_read_by_program,
    lists_of_lines,
    sources,
)

COUNT = 2000
DRAWN = 50  # journals of version 3
AT_ONCE = 4  # runs of the program
NUMBER = re.compile(rb"(?<![^ /])-?\d+(?![^ /\n])")
STEPS = (-1, 1) * 4 + (-2, 2, -64, 64)
ENDS = [0, 1, 199, 200, 1000, 10**9, 10**9 + 1, 2**56, 2**56 + 1, -(2**56), 4 * 10**14]
ENDS += [2**20, 2**20 + 1, 2**40, -(2**40) - 1, 2**62, -(2**62), 2**62 + 1, 2031, 2032]

Lines = list[bytes]


def written_out(lines: Lines) -> Lines:
    """A journal of version 2 in version 1: each leaf has all its multipliers."""
    goods = sum(line.startswith((b"good ", b"exact ")) for line in lines)
    found, multipliers = [], [b"0"] * goods
    for line in lines:
        words = line.split()
        if words[0] == b"ice":
            line = b" ".join([b"ice", b"1", words[2]]) + b"\n"
        elif words[0] in (b"final", b"rival", b"provisional", b"without", b"spent"):
            multipliers = [b"0"] * goods
        elif words[0] == b"near":
            for good, multiplier in zip(words[2::2], words[3::2]):
                multipliers[int(good)] = multiplier
            line = b" ".join([b"leaf", *multipliers]) + b"\n"
        found.append(line)
    return found


@cache
def journals() -> list[Lines]:
    """The journals that are damaged."""
    texts = [file.read_bytes().splitlines(keepends=True) for file in JOURNALS]
    texts += [
        [f"{line}\n".encode() for line in lines]
        for source in sources()
        for lines in lists_of_lines(source)
    ]
    return texts + [written_out(lines) for lines in texts if lines[0].startswith(b"ice 2")]


@cache
def later() -> list[Lines]:
    """The journals of version 3 that are damaged."""
    drawn = (derived.journal(seed)[0] for seed in range(DRAWN))
    return [[f"{line}\n".encode() for line in lines] for lines in drawn]


def other_byte(lines: Lines, draw: random.Random) -> None:
    """A byte is another one, or is left out, or stands before one more."""
    place = draw.randrange(len(lines))
    line = lines[place]
    at = draw.randrange(len(line))
    new = bytes([draw.choice([draw.randrange(256), draw.choice(b"0123456789 -/\n")])])
    lines[place] = line[:at] + draw.choice([new, b"", new + line[at : at + 1]]) + line[at + 1 :]


def other_number(lines: Lines, draw: random.Random) -> None:
    """A number is a little less or more, or is another one."""
    by_word: dict[bytes, list[int]] = {}
    for place, line in enumerate(lines):
        if NUMBER.search(line) and place > 0:
            by_word.setdefault(line.split(b" ")[0], []).append(place)
    if not by_word:
        return
    place = draw.choice(by_word[draw.choice(sorted(by_word))])
    line = lines[place]
    found = draw.choice(list(NUMBER.finditer(line)))
    if line.startswith((b"set ", b"row ", b"pool ")) and found.end() == len(line) - 1:
        at = draw.randrange(found.start(), found.end())
        new = line[:at] + (b"0" if line[at : at + 1] == b"1" else b"1")
        lines[place] = new + line[at + 1 :]
        return
    number = draw.choice([int(found[0]) + draw.choice(STEPS)] * 9 + [draw.choice(ENDS)])
    lines[place] = line[: found.start()] + b"%d" % number + line[found.end() :]


def left_out(lines: Lines, draw: random.Random) -> None:
    """A line is left out."""
    del lines[draw.randrange(len(lines))]


def doubled(lines: Lines, draw: random.Random) -> None:
    """A line stands twice."""
    place = draw.randrange(len(lines))
    lines.insert(place, lines[place])


def swapped(lines: Lines, draw: random.Random) -> None:
    """Two lines, mostly neighbours, change places."""
    one = draw.randrange(len(lines))
    other = draw.choice([min(one + 1, len(lines) - 1)] * 3 + [draw.randrange(len(lines))])
    lines[one], lines[other] = lines[other], lines[one]


def strange(lines: Lines, draw: random.Random) -> None:
    """A line of any of the journals stands in the place of one, or before it."""
    place = draw.randrange(len(lines) + 1)
    lines[place : place + draw.randrange(2)] = [draw.choice(draw.choice(journals() + later()))]


def other_sign(lines: Lines, draw: random.Random) -> None:
    """A good is exact, or no longer so; or the head names another version or kind."""
    for place, line in enumerate(lines):
        word = line.split(b" ")[0]
        if word in (b"good", b"exact") and draw.randrange(2):
            lines[place] = {b"good": b"exact", b"exact": b"good"}[word] + line[len(word) :]
    if draw.randrange(8) == 0 and lines:
        head = b"ice %d %s\n"
        kind = draw.choice([b"assign", b"regret", b"session", b"exchange", b"prices"])
        lines[0] = head % (draw.choice([1, 2, 3]), kind)


def cut(lines: Lines, draw: random.Random) -> None:
    """The journal ends before its end."""
    del lines[draw.randrange(len(lines)) :]


DAMAGES = [other_number] * 16 + [other_byte] * 3 + [left_out, doubled, swapped, strange] * 2
DAMAGES += [other_sign, cut]


def mutant(seed: int, pool: Callable[[], list[Lines]] = journals) -> bytes:
    """The damaged journal of a seed."""
    draw = random.Random(seed)
    lines = list(draw.choice(pool()))
    for _ in range(draw.choice([1, 1, 1, 1, 2, 3])):
        if lines:
            draw.choice(DAMAGES)(lines, draw)
    return b"".join(lines)


def differs(seed: int) -> str | None:
    """How the two answers to the mutant of a seed differ, where they do."""
    journal = mutant(seed)
    if not is_read_by_program(journal):
        return None
    is_stopped = any(line.startswith(b"spent ") for line in journal.splitlines())
    for command in ["check", "gap"] if is_stopped else ["check"]:
        ours, theirs = JUDGES[command](journal), answer_of_program(journal, command)
        if ours != theirs:
            return f"seed {seed}, {command}: {ours} here, {theirs} of the program"
    return None


def differences(count: int, first: int = 0) -> list[str]:
    """How the answers to so many mutants differ."""
    with ThreadPoolExecutor(AT_ONCE) as pool:
        found = pool.map(differs, range(first, first + count))
        return [text for text in found if text is not None]


def keep(found: list[str]) -> Path:
    """A folder with the mutants that are answered otherwise."""
    folder = Path(tempfile.mkdtemp(prefix="mutants-"))
    for text in found:
        seed = int(text.split()[1].rstrip(","))
        (folder / f"{seed}.journal").write_bytes(mutant(seed))
    return folder


def main(words: list[str]) -> int:
    """The status."""
    if PROGRAM is None:
        print("no built program is here: `./ice` builds one, or ICE_PROGRAMS names it")
        return 1
    count = int(words[0]) if words else COUNT
    found = differences(count, int(words[1]) if len(words) > 1 else 0)
    print(*found, f"{count} mutants, {len(found)} are answered otherwise", sep="\n")
    if found:
        print(f"they are kept in {keep(found)}")
    return int(bool(found))


if __name__ == "__main__":
    sys.exit(main(sys.argv[1:]))
