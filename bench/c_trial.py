"""The C of a procedure made to run: each annotation becomes a check in C, and a main takes inputs and tells how each run ends.

So that the annotations are tried and not only the code, a check is the annotation's own text, with what C writes in another way: chains
of comparisons, values at the beginning, the absolute value, and logic functions, which are functions here.
"""

import re
import subprocess
from pathlib import Path

HEAD = """#include <setjmp.h>
#include <stdio.h>
#include <stdlib.h>
static jmp_buf over;
static const char *how;
static int which;
static void stop(const char *kind, int number) { how = kind; which = number; longjmp(over, 1); }
static void hold(int truth, const char *kind, int number) { if (!truth) stop(kind, number); }
"""
WARNINGS = ["-std=c11", "-Wall", "-Wextra", "-Werror"]


def in_c(predicate):
    """A predicate of ACSL as C."""
    predicate = re.sub(r"\\(?:old|at)\((v_\w+)(?:, Pre)?\)", r"old_\1", predicate)
    predicate = re.sub(r"(-?\d+) <= (\w+) <= (-?\d+)", r"(\1 <= \2 && \2 <= \3)", predicate)
    return predicate.replace("\\result", "result").replace("\\abs", "labs")


def clauses(comment, keyword):
    return [in_c(it) for it in re.findall(rf"\b{keyword} ([^;]*);", comment)]


def logic(found):
    """A comment of logic functions; a divisor of 0 is told."""
    made = []
    for name, body in re.findall(r"logic integer (\w+)\(integer a, integer b\) = ([^;]*);", found[0]):
        made.append(f'static long {name}(long a, long b) {{ hold(b != 0, "DIVZERO", 0); return {in_c(body)}; }}')
    return "\n".join(made) + "\n"


def checked_function(found):
    """A function of two numbers with its contract: the divisor, the rest of what it requires, and what it ensures, are checked."""
    comment, name, body = found.groups()
    required, ensured = clauses(comment, "requires")[0], clauses(comment, "ensures")[0]
    return (
        f"static long plain_{name}(long a, long b) {{ {body} }}\n"
        f'long {name}(long a, long b);\nlong {name}(long a, long b) {{ hold(b != 0, "DIVZERO", 0); hold({required}, "TOO LARGE", 0);\n'
        f'  long result = plain_{name}(a, b); hold({ensured}, "ENSURES", 0); return result; }}\n'
    )


def checked(source, places):
    """The assertions as checks, numbered from 0, and each loop's invariants as checks where its body begins: the ranges, and then the
    assertions that stand next, under their numbers."""
    made, number = [], 0
    for part in re.split(r"(/\*@ loop invariant .*?\*/\nwhile \(1\) \{|//@ assert [^\n]*;)", source, flags=re.S):
        if part.startswith("//@"):
            made.append(f'hold({in_c(part.removeprefix("//@ assert ")[:-1])}, "CHECK", {number});')
            number += 1
        elif part.startswith("/*@ loop"):
            ranges, asserted = clauses(part, "loop invariant")[:places], clauses(part, "loop invariant")[places:]
            made += ["while (1) {", *(f'\nhold({it}, "RANGE AT HEAD", 0);' for it in ranges)]
            made += [f'\nhold({it}, "CHECK", {number + at});' for at, it in enumerate(asserted)]
        else:
            made.append(part)
    return "".join(made)


def program(name, source, places):
    """The whole program of one procedure, which has these variables."""
    source = re.sub(r"/\*@ logic .*?\*/\n", logic, source, flags=re.S)
    source = re.sub(r"(/\*@ requires b != 0.*?\*/)\nlong (\w+)\(long a, long b\) \{ (.*?) \}\n", checked_function, source, flags=re.S)
    contract = re.search(rf"/\*@ (requires (?:(?!\*/).)*)\*/\nvoid {name}\(void\)", source, re.S)
    *ranges, before = clauses(contract[1], "requires")
    (after,) = clauses(contract[1], "ensures")
    source = source.replace(contract[0], f"void {name}(void);\nvoid {name}(void)")
    old = "".join(f"static long old_v_{it};\n" for it in places)
    body = checked(source.replace("\nvoid", f"\n{old}void", 1), len(places))
    taken = "".join(f' && scanf("%ld", &old_v_{it}) == 1' for it in places)
    told = "".join(f' printf(" %ld", v_{it});' for it in places)
    lines = ["int main(void) {", f"while (!feof(stdin){taken}) {{", *(f"v_{it} = old_v_{it};" for it in places)]
    lines += ["if (setjmp(over) == 0) {", *(f'hold({it}, "RANGE OF INPUT", 0);' for it in ranges), f'hold({before}, "OUTSIDE", 0);']
    lines += [f"{name}();", f'hold({after}, "POST", 0);', 'stop("END", 0);', "}", f'printf("%s %d", how, which);{told} puts("");']
    lines += ["" if places else "break;", "}", "return 0;", "}"]
    return HEAD + body + "\n".join(lines) + "\n"


def compiled(folder, name, text, *words):
    """Compiles a text of C with these words, and returns what was made and what the compiler said."""
    path = Path(folder) / f"{name}.c"
    path.write_text(text)
    made = Path(folder) / name
    ran = subprocess.run(["gcc", *WARNINGS, *words, "-o", made, path], capture_output=True, text=True, timeout=120, check=False)
    return made, ran.stderr


def runs(made, inputs):
    """How the runs from these inputs end: the word, the number, and the values, by the C."""
    given = "".join(" ".join(map(str, it)) + "\n" for it in inputs)
    ran = subprocess.run([made], input=given, capture_output=True, text=True, timeout=20, check=True)
    found = []
    for line in ran.stdout.splitlines():
        how, number, values = re.fullmatch(r"([A-Z ]+) (\d+)((?: -?\d+)*)", line).groups()
        found.append((how, int(number), tuple(map(int, values.split()))))
    return found
