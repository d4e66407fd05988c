"""The command line of `assess`."""

from __future__ import annotations

import argparse
import io
import os
import sys
from typing import NoReturn, Optional, Sequence

from assess_lib import VERSION
from assess_lib.certify import certify, find_literals
from assess_lib.certify import LIMIT as CERTIFY_LIMIT
from assess_lib.check import check
from assess_lib.folder import assess_folder, run_one
from assess_lib.page import write_page
from assess_lib.program import NoProgram, Status, find_program
from assess_lib.propose import LIMIT, propose

_STOPPED = 130
_ABOUT = (
    "Runs malpas on texts and says what it found: for an editor, as a page, for a folder, or as a text with more assertions or with "
    "certificates."
)
_STATUSES = (
    "exit status: that of malpas, the greatest of several texts: 0 a report that leaves nothing open, 1 a report that "
    "leaves something open, 2 refused, 3 not read, 4 not written, 5 out of memory, 6 words not understood, 7 malpas not started"
)


class _Parser(argparse.ArgumentParser):
    """A parser that ends with the status of words that are not understood."""

    def error(self, message: str) -> NoReturn:
        self.print_usage(sys.stderr)
        self.exit(int(Status.WORDS), f"{self.prog}: {message}\n")


def _parser() -> argparse.ArgumentParser:
    """The parser of the command line."""
    parser = _Parser(prog="assess", description=_ABOUT, epilog=_STATUSES)
    parser.add_argument("--version", action="version", version=f"assess {VERSION}")
    common = argparse.ArgumentParser(add_help=False)
    common.add_argument(
        "--program", metavar="PATH", help="the malpas to run; else that of the variable MALPAS, beside this tool, or on PATH"
    )
    words = parser.add_subparsers(dest="word", metavar="WORD", parser_class=_Parser)
    checks = words.add_parser("check", parents=[common], help="say what malpas finds in files", epilog=_STATUSES)
    checks.add_argument("files", nargs="+", metavar="FILE")
    pages = words.add_parser("page", parents=[common], help="write one file's page to standard output", epilog=_STATUSES)
    pages.add_argument("file", metavar="FILE")
    folders = words.add_parser("folder", parents=[common], help="report and page of each .mal file", epilog=_STATUSES)
    folders.add_argument("folder", metavar="FOLDER")
    folders.add_argument("--jobs", metavar="N", help="so many at once (as GNU parallel's --jobs); else one per processor")
    folders.add_argument("--sshlogin", metavar="LIST", action="append", default=[], help="machines (as GNU parallel's)")
    proposes = words.add_parser(
        "propose", parents=[common], help="write a text with assertions at its loop heads that malpas proves", epilog=_STATUSES
    )
    proposes.add_argument("file", metavar="FILE")
    proposes.add_argument(
        "--seconds", metavar="N", type=float, default=LIMIT, help="try no more after N seconds in a procedure; else %(default)g"
    )
    certifies = words.add_parser(
        "certify", parents=[common], help="write a text with certificates for its open threats, which malpas checks", epilog=_STATUSES
    )
    certifies.add_argument("file", metavar="FILE")
    certifies.add_argument(
        "--literals", metavar="PATH", help="the malpas_literals to run; else that of MALPAS_LITERALS, beside malpas, or on PATH"
    )
    certifies.add_argument(
        "--seconds", metavar="N", type=float, default=CERTIFY_LIMIT, help="give up a threat after N seconds; else %(default)g"
    )
    one = words.add_parser("one", parents=[common])
    one.add_argument("file", metavar="FILE")
    return parser


def _settle_streams(word: str) -> None:
    """A page is UTF-8, whatever the terminal has; what a terminal can't show is replaced."""
    for stream in (sys.stdout, sys.stderr):
        if isinstance(stream, io.TextIOWrapper):
            page_out = word == "page" and stream is sys.stdout
            stream.reconfigure(encoding="utf-8" if page_out else stream.encoding, errors="replace")


def _run(words: argparse.Namespace) -> int:
    """Does what the words ask for, and answers the exit status."""
    program = find_program(words.program)
    if words.word == "check":
        return check(words.files, program, sys.stdout, sys.stderr)
    if words.word == "page":
        return write_page(words.file, program, sys.stdout, sys.stderr)
    if words.word == "propose":
        return propose(words.file, program, sys.stdout, sys.stderr, words.seconds)
    if words.word == "certify":
        literals = find_literals(program, words.literals)
        return certify(words.file, program, literals, sys.stdout, sys.stderr, words.seconds)
    if words.word == "one":
        run_one(words.file, program)
        return int(Status.CLEAN)
    return assess_folder(words.folder, program, words.jobs, words.sshlogin, sys.stdout, sys.stderr)


def main(arguments: Optional[Sequence[str]] = None) -> int:
    """Runs the command line and answers the exit status."""
    parser = _parser()
    words = parser.parse_args(arguments)
    if words.word is None:
        parser.print_help(sys.stderr)
        return int(Status.WORDS)
    _settle_streams(words.word)
    try:
        return _run(words)
    except NoProgram as error:
        print(f"assess: {error}", file=sys.stderr)
        return int(Status.NO_WORDS)
    except KeyboardInterrupt:
        print("assess: stopped; a folder goes on from here when the command is given again", file=sys.stderr)
        return _STOPPED
    except BrokenPipeError:
        os.dup2(os.open(os.devnull, os.O_WRONLY), sys.stdout.fileno())
        return int(Status.WRITE_FAILED)
