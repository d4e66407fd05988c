"""The command line: words, statuses, files and folders, with a stand-in for malpas that plays back the record."""

from __future__ import annotations

import io
import os
import shutil
import stat
import subprocess
import sys
import tempfile
import unittest
from contextlib import redirect_stderr, redirect_stdout
from dataclasses import dataclass
from pathlib import Path
from unittest import mock

from assess_lib.command import main
from assess_tests.accessibility import faults_of
from assess_tests.recorded import HERE, RECORD

TOOLS = HERE.parent
PLAYER = f"""#!{sys.executable}
import hashlib, json, sys
data = sys.stdin.buffer.read()
if data.startswith(b"TITLE probe;"):
    sys.exit(0)
with open({str(RECORD)!r}, encoding="utf-8") as known:
    run = json.load(known)[hashlib.sha256(data).hexdigest()]
sys.stdout.write(run["output"])
sys.exit(run["status"])
"""


@dataclass(frozen=True)
class Done:
    """What a run of assess gave."""

    returncode: int
    stdout: str
    stderr: str


class Commands(unittest.TestCase):
    """Each word as a user gives it."""

    def setUp(self) -> None:
        self._folder = tempfile.TemporaryDirectory()
        self.addCleanup(self._folder.cleanup)
        self.here = Path(self._folder.name)
        self.player = self.here / "player"
        self.player.write_text(PLAYER, encoding="utf-8")
        self.player.chmod(self.player.stat().st_mode | stat.S_IXUSR)

    def run_words(self, *words: str, program: str = "", path: str = "") -> Done:
        """Runs assess with words and the stand-in, in this process."""
        given = {"MALPAS": program or str(self.player), "SOURCE_DATE_EPOCH": "0", "PATH": path or os.environ["PATH"]}
        out, errors = io.StringIO(), io.StringIO()
        with mock.patch.dict(os.environ, given), redirect_stdout(out), redirect_stderr(errors):
            try:
                status = main(list(words))
            except SystemExit as ended:
                status = int(ended.code or 0)
        return Done(status, out.getvalue(), errors.getvalue())

    def test_command(self) -> None:
        """The command itself runs from any folder."""
        words = [sys.executable, str(TOOLS / "assess"), "--version"]
        done = subprocess.run(words, capture_output=True, text=True, cwd=self.here, check=False)
        self.assertEqual((done.returncode, done.stdout.split()[0]), (0, "assess"))

    def test_help_and_version(self) -> None:
        """Help and version, with status 0; words that are not understood, with malpas's status for them."""
        for words in (["--help"], ["check", "--help"], ["page", "--help"], ["folder", "--help"], ["propose", "--help"], ["--version"]):
            done = self.run_words(*words)
            self.assertEqual(done.returncode, 0, words)
            self.assertIn("assess", done.stdout)
        for words in ([], ["chek"], ["check"], ["page"], ["propose"], ["check", "--nosuch", "x.mal"]):
            done = self.run_words(*words)
            self.assertEqual((done.returncode, done.stdout), (6, ""), words)

    def test_statuses(self) -> None:
        """The status is malpas's, the greatest of several files; a file that is not there has that of reading."""
        texts, slips = HERE / "texts", HERE / "slips"
        clean, twice, refused = texts / "copy.mal", texts / "two_entries.mal", slips / "fractions.mal"
        for files, status in (
            ([clean], 0),
            ([clean, twice], 1),
            ([twice, refused, clean], 2),
            ([refused, self.here / "none.mal"], 3),
        ):
            self.assertEqual(self.run_words("check", *map(str, files)).returncode, status, files)
        self.assertEqual(self.run_words("page", str(self.here / "none.mal")).returncode, 3)

    def test_no_program(self) -> None:
        """A malpas that is not there is told in words."""
        done = self.run_words("check", str(HERE / "texts" / "copy.mal"), program=str(self.here / "nothing"))
        self.assertEqual(done.returncode, 7)
        self.assertIn("no program that can be run", done.stderr)

    def test_page(self) -> None:
        """A page goes to standard output, with malpas's status."""
        done = self.run_words("page", str(HERE / "slips" / "fractions.mal"))
        self.assertEqual(done.returncode, 2)
        self.assertTrue(done.stdout.startswith("<!DOCTYPE html>"))
        self.assertIn("1970-01-01 00:00 UTC", done.stdout)

    def test_folder(self) -> None:
        """Report and page beside each text, an index, and nothing run twice; a changed text is run again."""
        if shutil.which("parallel") is None:
            self.skipTest("GNU parallel is not installed, so no folder was tried by it")
        self._folder_runs()

    def test_folder_without_parallel(self) -> None:
        """Where GNU parallel is missing, the texts are run one after the other, and that is told."""
        empty = self.here / "bin"
        empty.mkdir()
        self.assertIn("GNU parallel is not installed", self._folder_runs(str(empty)))

    def _folder_runs(self, path: str = "") -> str:
        """Three runs over a folder; answers what the first said on standard error."""
        folder = self.here / "my texts"
        inner = folder / "it's inside"
        inner.mkdir(parents=True)
        shutil.copy(HERE / "texts" / "valve.mal", folder / "valve.mal")
        shutil.copy(HERE / "slips" / "fractions.mal", inner / "a b.mal")
        first = self.run_words("folder", str(folder), "--jobs", "2", path=path)
        self.assertEqual((first.returncode, first.stdout.split("\n")[0]), (2, "2 texts, 0 without change, 2 to run"))
        for name in ("valve.report", "valve.html", "it's inside/a b.report", "it's inside/a b.html", "index.html"):
            self.assertTrue((folder / name).is_file(), name)
        again = self.run_words("folder", str(folder), "--jobs", "2", path=path)
        self.assertEqual((again.returncode, again.stdout.split("\n")[0]), (2, "2 texts, 2 without change, 0 to run"))
        shutil.copy(HERE / "texts" / "copy.mal", inner / "a b.mal")
        (folder / "valve.report").unlink()
        third = self.run_words("folder", str(folder), "--jobs", "2", path=path)
        self.assertEqual((third.returncode, third.stdout.split("\n")[0]), (0, "2 texts, 0 without change, 2 to run"))
        self.assertIn("TITLE valve", (folder / "valve.report").read_text(encoding="ascii"))
        index = (folder / "index.html").read_text(encoding="utf-8")
        self.assertIn('href="./valve.html"', index)
        self.assertEqual(faults_of(index), [])
        return first.stderr


if __name__ == "__main__":
    unittest.main()
