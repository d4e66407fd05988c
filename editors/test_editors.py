"""Holds the editors' files against docs/PROFILE.md and the examples: the keywords; the grammar token by token, by Oniguruma where it is
here; VS Code's manifest, task, problem matchers and indentation, by JavaScript where Node is here; and, where Vim is here, Vim's colours
and its reading of what assess check writes."""
import importlib.machinery
import importlib.util
import io
import itertools
import json
import os
import plistlib
import re
import shutil
import subprocess
import sys
import tempfile
import unittest

HERE = os.path.dirname(os.path.abspath(__file__))
TOP = os.path.dirname(HERE)
sys.path[:0] = [HERE, os.path.join(TOP, "tools")]

import textmate  # noqa: E402
from assess_lib.analysis import analyse, read_source  # noqa: E402
from assess_lib.check import tell  # noqa: E402
from assess_lib.findings import findings_of  # noqa: E402
from assess_tests import recorded  # noqa: E402


def load_make():
    loader = importlib.machinery.SourceFileLoader("editors_make", os.path.join(HERE, "make"))
    spec = importlib.util.spec_from_loader("editors_make", loader)
    made = importlib.util.module_from_spec(spec)
    loader.exec_module(made)
    return made


make = load_make()


def read(*path):
    with open(os.path.join(*path), encoding="ascii") as file:
        return file.read()


def examples():
    """The texts of the examples, by their names."""
    folder = os.path.join(TOP, "examples")
    return {name: read(folder, name) for name in sorted(os.listdir(folder)) if name.endswith(".mal")}


def tokens(text):
    """The comments and tokens of a text with their places, by the language's own rule: each takes as many bytes as it can."""
    rule = re.compile(r"(?P<comment>\[[^\]]*\])|(?P<word>[A-Za-z][A-Za-z0-9_]*)|(?P<number>[0-9]+)|(?P<symbol>:=|\.\.|/=|<=|>=|[:;,()+*=<>-])|(?P<space>[\t\n\r ])")
    at, found = 0, []
    while at < len(text):
        match = rule.match(text, at)
        if match is None:
            raise ValueError(f"no token at byte {at}")
        if match.lastgroup != "space":
            found.append((at, match.lastgroup, match[0]))
        at = match.end()
    return found


class Keywords(unittest.TestCase):
    def test_the_list_is_that_of_the_profile(self):
        profile = read(TOP, "docs", "PROFILE.md")
        listed = re.search(r"^Keywords: ([A-Z ]+)\.", profile, re.M)
        self.assertIsNotNone(listed, "docs/PROFILE.md has no line of keywords")
        self.assertEqual([word for word, _ in make.keywords()], listed[1].split())

    def test_the_files_are_what_the_list_makes(self):
        for path, wanted in make.files().items():
            with open(os.path.join(HERE, path), "rb") as file:
                self.assertEqual(file.read(), wanted, f"editors/{path}: run editors/make")


class Grammar(unittest.TestCase):
    def setUp(self):
        self.grammar = json.loads(read(HERE, "vscode", "syntaxes", "malpas.tmLanguage.json"))

    def test_both_forms_are_one_grammar(self):
        with open(os.path.join(HERE, "sublime", "malpas.tmLanguage"), "rb") as file:
            self.assertEqual(plistlib.load(file), self.grammar)

    def test_each_token_of_the_examples_has_its_scope(self):
        kinds = {word: f"{make.KINDS[kind][0]}.malpas" for word, kind in make.keywords()}
        for (name, text), engine in itertools.product(examples().items(), textmate.engines()):
            given = textmate.scopes_of(text, self.grammar, engine)
            for at, kind, word in tokens(text):
                with self.subTest(text=name, byte=at, token=word, engine=engine.__name__):
                    has = set(given[at : at + len(word)])
                    self.assertEqual(len(has), 1)
                    scope = has.pop()
                    if kind == "comment":
                        self.assertEqual(scope, "comment.block.malpas")
                    elif kind == "number":
                        self.assertEqual(scope, "constant.numeric.decimal.malpas")
                    elif word in kinds:
                        self.assertEqual(scope, kinds[word])
                    elif kind == "word":
                        self.assertRegex(scope, r"^(variable\.other|entity\.name\.\w+)\.malpas$")
                    else:
                        self.assertRegex(scope, r"^(keyword\.operator|punctuation)\.")

    def test_names_beside_keywords(self):
        cases = [
            ("IFx", ["variable.other"] * 3),
            ("x1IF", ["variable.other"] * 4),
            ("if", ["variable.other"] * 2),
            ("12IF", ["constant.numeric.decimal"] * 2 + ["keyword.control"] * 2),
            ("PROC IF", ["keyword.other.structure"] * 4 + [""] + ["keyword.control"] * 2),
            ("PROC p1", ["keyword.other.structure"] * 4 + [""] + ["entity.name.function"] * 2),
            ("CALL p1(a)", ["keyword.control.jump"] * 4 + [""] + ["entity.name.function"] * 2 + ["punctuation.section.parens", "variable.other", "punctuation.section.parens"]),
            ("a#b", ["variable.other", "invalid.illegal", "variable.other"]),
            ("[IF;]IF", ["comment.block"] * 5 + ["keyword.control"] * 2),
            ("[IF\n;]IF", ["comment.block"] * 6 + ["keyword.control"] * 2),
            ("[\n\nIF", ["comment.block"] * 5),
        ]
        for (text, wanted), engine in itertools.product(cases, textmate.engines()):
            with self.subTest(text=text, engine=engine.__name__):
                self.assertEqual(textmate.scopes_of(text, self.grammar, engine), [it and f"{it}.malpas" for it in wanted])


def javascript(text, *given):
    """Runs a text of JavaScript, the language of VS Code's problem matchers and language configuration, with a value, and returns another."""
    ran = subprocess.run(["node", "-e", text], input=json.dumps(given), capture_output=True, text=True, timeout=60, check=False)
    if ran.returncode:
        raise ValueError(ran.stderr)
    return json.loads(ran.stdout)


READ = """const [expressions, lines] = JSON.parse(require("fs").readFileSync(0));
const made = expressions.map((it) => new RegExp(it));
console.log(JSON.stringify(lines.map((line) => made.map((it) => it.exec(line)))));"""


def read_lines(expressions, lines):
    """For each line and each expression the match with its groups, or None, by JavaScript where it is here, else by Python."""
    if shutil.which("node"):
        return javascript(READ, expressions, lines)
    matches = [[re.search(it, line) for it in expressions] for line in lines]
    return [[it and [it[0], *it.groups()] for it in line] for line in matches]


class Code(unittest.TestCase):
    """The folder for VS Code."""

    def setUp(self):
        self.manifest = json.loads(read(HERE, "vscode", "package.json"))
        self.package = self.manifest["contributes"]
        self.patterns = {f"${it['name']}": it for it in self.package["problemPatterns"]}
        self.matchers = {f"${it['name']}": it for it in self.package["problemMatchers"]}

    def read_messages(self, lines):
        """What the matchers read of each line: severity, file, line, column, code and message."""
        patterns = [self.patterns[it["pattern"]] for it in self.matchers.values()]
        told = []
        for matches in read_lines([it["regexp"] for it in patterns], lines):
            found = zip(self.matchers.values(), patterns, matches)
            parts = ("file", "line", "column", "code", "message")
            told.append([(matcher["severity"], *(match[pattern[it]] if it in pattern else None for it in parts)) for matcher, pattern, match in found if match])
        return told

    def test_the_manifest_has_what_the_editor_asks_for(self):
        """The fields that VS Code refuses an extension without, and names that belong together."""
        for field in ("name", "publisher"):
            self.assertRegex(self.manifest[field], "^[a-z0-9][a-z0-9-]*$")
        self.assertRegex(self.manifest["version"], r"^\d+\.\d+\.\d+$")
        self.assertRegex(self.manifest["engines"]["vscode"], r"^\^\d+\.\d+\.\d+$")
        (language,), (grammar,) = self.package["languages"], self.package["grammars"]
        self.assertEqual(grammar["language"], language["id"])
        self.assertEqual(grammar["scopeName"], make.grammar()["scopeName"])
        self.assertEqual([it.lstrip(".") for it in language["extensions"]], make.grammar()["fileTypes"])

    def test_the_package_names_files_that_are_there(self):
        paths = [it["configuration"] for it in self.package["languages"]] + [it["path"] for it in self.package["grammars"]]
        for path in paths:
            with self.subTest(path=path):
                json.loads(read(HERE, "vscode", path))

    def test_the_matchers_are_those_of_the_task(self):
        for matcher in self.matchers.values():
            self.assertIn(matcher["pattern"], self.patterns)
            self.assertIn(matcher["severity"], ("error", "warning", "info"))
            self.assertEqual(matcher["fileLocation"], ["autoDetect", "${workspaceFolder}"])
        self.assertEqual(len({it["owner"] for it in self.matchers.values()}), len(self.matchers))
        tasks = json.loads(read(HERE, "vscode", "tasks.json"))
        self.assertEqual(tasks["version"], "2.0.0")
        (task,) = tasks["tasks"]
        self.assertEqual((task["command"], task["args"]), ("assess", ["check", "${file}"]))
        self.assertEqual(set(task["problemMatcher"]), set(self.matchers))

    def test_the_problem_matchers_read_what_assess_check_writes(self):
        found = self.read_messages([line for line, _ in MESSAGES])
        self.assertEqual(found, [[wanted] if wanted else [] for _, wanted in MESSAGES])

    def test_the_problem_matchers_read_all_lines_of_assess_check(self):
        """On every text of the tool's tests: one problem for each fault and finding, at its place, and none for any other line."""
        for path in recorded.TEXTS:
            out = io.StringIO()
            found = analyse(path.name, read_source(str(path)), recorded.Recorded())
            tell(found, out, out)
            wanted = [("error", it.position, it.refusal.code) for it in (found.faults.told if found.faults else [])]
            wanted += [("warning", it.position, None) for each in found.procedures for it in findings_of(each)]
            wanted = [(severity, path.name, str(at.line), str(at.column), code) for severity, at, code in wanted]
            with self.subTest(text=path.name):
                told = self.read_messages(out.getvalue().splitlines())
                self.assertEqual([it[:5] for line in told for it in line], wanted)
                self.assertLessEqual({len(line) for line in told}, {0, 1})

    def test_words_and_indentation(self):
        settings = json.loads(read(HERE, "vscode", "language-configuration.json"))
        rules = settings["indentationRules"]
        lines = ["IF a = 1;", "  ELSE;", "LOOP;", "ENDIF;", "\tENDLOOP;", "IFx := 1;", "x := LOOPS;"]
        found = read_lines([rules["increaseIndentPattern"], rules["decreaseIndentPattern"]], lines)
        wanted = [(1, 0), (1, 1), (1, 0), (0, 1), (0, 1), (0, 0), (0, 0)]
        self.assertEqual([tuple(int(it is not None) for it in line) for line in found], wanted)
        self.assertEqual(read_lines([settings["wordPattern"]], ["12ab_3 x"]), [[["ab_3"]]])


# Lines as assess check writes them, with the severity, file, line, column, code and message that an editor is to read.
MESSAGES = [
    ("a.mal:12:3: E05: statement has no form", ("error", "a.mal", "12", "3", "E05", "statement has no form")),
    ("   12 |   level = full;", None),
    ("      |   ^", None),
    ("      = hint: an assignment is written with :=, as in level := ..", None),
    ("dir/a b.mal:2:1: E09: name unknown: x", ("error", "dir/a b.mal", "2", "1", "E09", "name unknown: x")),
    ("a.mal: refused, 1 fault told", None),
    ("v.mal:11:1: finding: fill: OUT mode is never read", ("warning", "v.mal", "11", "1", None, "fill: OUT mode is never read")),
    ("v.mal: fill: fact: 14 lines, 1 loop (line 15)", None),
    ("v.mal: not analysed: whether a run ends", None),
]


@unittest.skipUnless(shutil.which("vim"), "vim is not here")
class Vim(unittest.TestCase):
    def vim(self, *commands, file=None):
        """Runs these commands in a Vim that knows this folder alone beside its own files, and returns the lines that they wrote."""
        with tempfile.TemporaryDirectory() as room:
            out = os.path.join(room, "out")
            script = os.path.join(room, "script.vim")
            with open(script, "w", encoding="ascii") as it:
                it.write("\n".join([*commands, f"call writefile(g:out, '{out}')", "qall!", ""]))
            start = ["--cmd", f"set nocompatible nomore runtimepath^={HERE}/vim", "--cmd", "filetype plugin on", "--cmd", "syntax on"]
            words = ["vim", "-u", "NONE", "-i", "NONE", "-n", "-es", *start, "-S", script, *([file] if file else [])]
            ran = subprocess.run(words, stdin=subprocess.DEVNULL, capture_output=True, text=True, timeout=60, check=False)
            self.assertTrue(os.path.isfile(out), f"Vim wrote nothing: {ran.stdout} {ran.stderr}")
            return read(out).splitlines()

    def test_colours(self):
        """Each token of the examples is in its group; names are in none."""
        if self.vim("let g:out = [has('syntax')]") != ["1"]:
            self.skipTest("this Vim was built without colours")
        kinds = {word: f"malpas{kind.capitalize()}" for word, kind in make.keywords()}
        for name, text in examples().items():
            lines = self.vim(
                "let g:out = [&filetype]",
                "for l in range(1, line('$')) | for c in range(1, len(getline(l))) | call add(g:out, synIDattr(synID(l, c, 1), 'name')) | endfor | call add(g:out, '') | endfor",
                file=os.path.join(TOP, "examples", name),
            )
            self.assertEqual(lines[0], "malpas")
            groups = lines[1:]
            for at, kind, word in tokens(text):
                with self.subTest(text=name, byte=at, token=word):
                    if kind == "comment":
                        self.assertEqual(groups[at], "malpasComment")
                    elif kind == "number":
                        self.assertEqual(groups[at], "malpasNumber")
                    elif word in kinds:
                        self.assertEqual(groups[at], kinds[word])
                    elif kind == "word":
                        self.assertIn(groups[at], ("", "malpasName"))
                    else:
                        self.assertIn(groups[at], ("", "malpasSymbol"))

    def test_the_compiler_reads_what_assess_check_writes(self):
        with tempfile.TemporaryDirectory() as room:
            said = os.path.join(room, "said")
            with open(said, "w", encoding="ascii") as file:
                file.write("".join(f"{line}\n" for line, _ in MESSAGES))
            lines = self.vim(
                "compiler malpas",
                f"cgetfile {said}",
                "let g:out = [&makeprg]",
                "for q in getqflist() | call add(g:out, q.type . '|' . bufname(q.bufnr) . '|' . q.lnum . '|' . q.col . '|' . q.text) | endfor",
            )
        self.assertEqual(lines[0], "assess check %:S")
        wanted = ["|".join([it[0][0].upper(), it[1], it[2], it[3], it[5]]) for _, it in MESSAGES if it]
        self.assertEqual(lines[1:], wanted)


if __name__ == "__main__":
    unittest.main()
