#!/usr/bin/env python3
"""Joins single bids into a round file; `examples/collect.py --help` says how."""
import sys
from pathlib import Path

if sys.version_info < (3, 10):
    sys.exit("collect wants Python 3.10 or later")
sys.dont_write_bytecode = True
sys.path.insert(0, str(Path(__file__).resolve().parents[1] / "sheet"))

from ice_sheet.collecting import main  # noqa: E402

if __name__ == "__main__":
    sys.exit(main())
