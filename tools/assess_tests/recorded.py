"""A stand-in for malpas that plays back what the program once said, so that the tests need no built program.

`python3 -m assess_tests.recorded PROGRAM` in `tools` runs the program on all texts of the tests and writes the record anew.
A text that is not in the record is an error of the test, never an answer.
"""

from __future__ import annotations

import hashlib
import json
import sys
from pathlib import Path
from typing import Optional

from assess_lib.analysis import analyse, read_source
from assess_lib.program import Outcome, Program

HERE = Path(__file__).resolve().parent
RECORD = HERE / "recorded.json"
TEXTS = sorted([*(HERE / "slips").glob("*.mal"), *(HERE / "texts").glob("*.mal")])


class Recorded:
    """Plays back outcomes by the SHA-256 of the text; with a program it asks that one, and keeps what it says."""

    def __init__(self, asked: Optional[Program] = None) -> None:
        self.asked = asked
        self.known = json.loads(RECORD.read_text(encoding="utf-8")) if asked is None else {}

    def run(self, data: bytes) -> Outcome:
        """What malpas said, or says, of these bytes."""
        key = hashlib.sha256(data).hexdigest()
        if self.asked is not None and key not in self.known:
            outcome = self.asked.run(data)
            self.known[key] = {"status": outcome.status, "output": outcome.output, "text": data.decode("latin-1")}
        if key not in self.known:
            raise KeyError("no record of this text, so write the record anew:\n" + data.decode("latin-1"))
        return Outcome(self.known[key]["status"], self.known[key]["output"])


def main(path: str) -> None:
    """Writes the record anew by the program at a path."""
    recorded = Recorded(Program(Path(path)))
    for text in TEXTS:
        analyse(text.name, read_source(str(text)), recorded)
    RECORD.write_text(json.dumps(recorded.known, indent=0, sort_keys=True) + "\n", encoding="utf-8")
    print(f"{len(recorded.known)} runs recorded")


if __name__ == "__main__":
    main(sys.argv[1])
