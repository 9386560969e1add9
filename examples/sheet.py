#!/usr/bin/env python3
"""Makes flat bids, or a round of bids, of a table in CSV; `examples/sheet.py --help` says how."""
import sys
from pathlib import Path

if sys.version_info < (3, 10):
    sys.exit("sheet wants Python 3.10 or later")
sys.dont_write_bytecode = True
sys.path.insert(0, str(Path(__file__).resolve().parents[1] / "sheet"))

from ice_sheet.command import main  # noqa: E402

if __name__ == "__main__":
    sys.exit(main())
