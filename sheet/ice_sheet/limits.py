"""Files that somebody else wrote: how much of one is read."""
from __future__ import annotations

FILE_LIMIT = 16_777_216


def front_of(file: str) -> bytes:
    """The bytes of a file; of one beyond the limit no more than shows that it is."""
    with open(file, "rb") as stream:
        return stream.read(FILE_LIMIT + 1)
