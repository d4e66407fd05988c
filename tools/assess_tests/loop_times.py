"""What `assess propose` comes to on the loops of the tests: `python3 -m assess_tests.loop_times PROGRAM` in `tools`."""

from __future__ import annotations

import io
import sys
import time
from pathlib import Path

from assess_lib.program import Program
from assess_lib.propose import propose
from assess_tests.recorded import HERE

LOOPS = sorted((HERE / "loops").glob("*.mal"))


def proposed(file: Path, program: Program) -> tuple[int, str, str]:
    """The status, the text and the last line on standard error of one run."""
    out, errors = io.StringIO(), io.StringIO()
    status = propose(str(file), program, out, errors)
    return status, out.getvalue(), errors.getvalue()


def main(path: str) -> None:
    """Prints one line a loop, and how many came out proved."""
    proved = 0
    for file in LOOPS:
        begun = time.monotonic()
        status, text, _ = proposed(file, Program(Path(path)))
        kept = [line.split("ASSERT ")[1].split(";")[0] for line in text.splitlines() if "[ proposed ]" in line]
        print(f"| `{file.stem}` | {'yes' if status == 0 else 'no'} | {time.monotonic() - begun:.1f} | {', '.join(kept)} |")
        proved += status == 0
    print(f"{proved} of {len(LOOPS)} proved")


if __name__ == "__main__":
    main(sys.argv[1])
