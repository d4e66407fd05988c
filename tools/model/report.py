#!/usr/bin/env python3
"""report.py < TEXT prints what malpas prints for a text, by a second implementation, and ends with the same status."""

import sys
from pathlib import Path

sys.path[0] = str(Path(__file__).resolve().parent.parent)
sys.dont_write_bytecode = True

from model.command import main  # noqa: E402

if __name__ == "__main__":
    sys.exit(main())
