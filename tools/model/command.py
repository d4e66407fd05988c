"""The words of the command line, and the answer to a text."""

from __future__ import annotations

import sys
import threading
from concurrent.futures import ThreadPoolExecutor
from dataclasses import dataclass
from typing import Callable

from model.accepting import accept
from model.making import number_of, summary_of
from model.printing import SECTIONS, SIX, report_of
from model.refusal import Refused

DEEPEST_CALL = 200_000
STACK_BYTES = 512 * 1024 * 1024
NOT_UNDERSTOOD = ("malpas: words not understood\n", 6)


@dataclass(frozen=True)
class Request:
    """What the words ask for: sections, or the summary of a made text."""

    sections: tuple[str, ...]
    made: int | None


def read_words(words: list[str]) -> Request | None:
    """The request of the words; None where they are not understood."""
    chosen = {f"--{section.lower()}": section for section in SECTIONS}
    named: set[str] = set()
    made: list[int | None] = []
    waiting = iter(words)
    for word in waiting:
        if word in chosen:
            named.add(chosen[word])
        elif word == "--generate":
            made.append(number_of(next(waiting, "")))
        elif word.startswith("--generate="):
            made.append(number_of(word.removeprefix("--generate=")))
        else:
            return None
    if len(made) > 1 or None in made:
        return None
    sections = tuple(section for section in SECTIONS if section in named) or SIX
    return Request(sections, made[0] if made else None)


def answer(text: bytes, sections: tuple[str, ...] = SIX) -> tuple[str, int]:
    """What is printed for a text, and the exit status."""
    try:
        return report_of(accept(text), sections)
    except Refused as refused:
        return refused.line(), 2


def deeply(call, *arguments):
    """The answer of a call that runs on a stack large enough for the deepest expressions."""
    sys.setrecursionlimit(DEEPEST_CALL)
    threading.stack_size(STACK_BYTES)
    with ThreadPoolExecutor(1) as pool:
        return pool.submit(call, *arguments).result()


def answer_words(words: list[str], read: Callable[[], bytes]) -> tuple[str, int]:
    """What is printed for words, and the exit status; the text is read only where it is asked for."""
    request = read_words(words)
    if request is None:
        return NOT_UNDERSTOOD
    if request.made is not None:
        return summary_of(request.made)
    return answer(read(), request.sections)


def main() -> int:
    """Answers standard input on standard output."""
    output, status = deeply(answer_words, sys.argv[1:], sys.stdin.buffer.read)
    sys.stdout.write(output)
    return status
