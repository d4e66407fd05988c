"""Texts of the language as C with ACSL: variables are globals, ranges are requires, loop invariants and asserts."""

from model.lexing import tokens_of
from model.parsing import MODES, statements_of
from model.program import bounds_of

EUCLID = """/*@ logic integer remainder_of(integer a, integer b) = a % b >= 0 ? a % b : a % b + \\abs(b);
  @ logic integer quotient_of(integer a, integer b) = (a - remainder_of(a, b)) / b; */
/*@ requires b != 0 && -1000000000 <= a <= 1000000000 && -1000000000 <= b <= 1000000000;
  @ assigns \\nothing; ensures \\result == remainder_of(a, b); */
long euclid_remainder(long a, long b) { long r = a % b; return r >= 0 ? r : b < 0 ? r - b : r + b; }
/*@ requires b != 0 && -1000000000 <= a <= 1000000000 && -1000000000 <= b <= 1000000000;
  @ assigns \\nothing; ensures \\result == quotient_of(a, b); */
long euclid_quotient(long a, long b) { return (a - euclid_remainder(a, b)) / b; }
"""
SIGNS = {"=": "==", "/=": "!=", "AND": "&&", "OR": "||", "DIV": "/", "MOD": "%"}
CONDITIONS = ("AND", "OR", "NOT", "=", "/=", "<", "<=", ">", ">=")


class Translator:
    """Writes the C of one text."""

    def __init__(self, text):
        self.statements = statements_of(tokens_of(text))
        self.constants, self.types, self.procedures = {}, {}, []
        self.places, self.out, self.post = {}, [], None

    def number(self, bound):
        return self.constants[bound.name] if bound.name else bound.value

    def range_of(self, use):
        if use.kind == "BOOL":
            return 0, 1, False
        if use.kind == "named":
            return self.types[use.name]
        return self.number(use.bounds[0]), self.number(use.bounds[1]), use.wrap

    def bounds(self, raw):
        if raw.kind == "number":
            return raw.value, raw.value
        if raw.kind in ("name", "old"):
            found = self.constants.get(raw.text)
            return (found, found) if found is not None else self.places[raw.text][:2]
        if raw.kind == "opposite":
            least, greatest = self.bounds(raw.left)
            return -greatest, -least
        if raw.kind in CONDITIONS or raw.kind == "truth":
            return 0, 1
        return bounds_of(raw.kind, self.bounds(raw.left), self.bounds(raw.right))

    def division(self, raw, left, right, logic):
        if self.bounds(raw.left)[0] >= 0 and self.bounds(raw.right)[0] > 0:
            return f"({left} {SIGNS[raw.kind]} {right})"
        name = "quotient" if raw.kind == "DIV" else "remainder"
        return f"{name}_of({left}, {right})" if logic else f"euclid_{name}({left}, {right})"

    def term(self, raw, old):
        """A whole value: in C where old is None, else in ACSL, with old for the value at the beginning."""
        if raw.kind in ("number", "truth"):
            return str(raw.value)
        if raw.kind == "name":
            return f"({self.constants[raw.text]})" if raw.text in self.constants else f"v_{raw.text}"
        if raw.kind == "old":
            return old.format(f"v_{raw.text}")
        if raw.kind == "opposite":
            return f"(-{self.term(raw.left, old)})"
        if raw.kind in CONDITIONS:
            return f"({self.condition(raw, old)} ? 1 : 0)"
        left, right = self.term(raw.left, old), self.term(raw.right, old)
        if raw.kind in ("DIV", "MOD"):
            return self.division(raw, left, right, old is not None)
        return f"({left} {raw.kind} {right})"

    def condition(self, raw, old):
        if raw.kind == "NOT":
            return f"(!{self.condition(raw.left, old)})"
        if raw.kind in ("AND", "OR"):
            return f"({self.condition(raw.left, old)} {SIGNS[raw.kind]} {self.condition(raw.right, old)})"
        if raw.kind in CONDITIONS:
            return f"({self.term(raw.left, old)} {SIGNS.get(raw.kind, raw.kind)} {self.term(raw.right, old)})"
        return f"({self.term(raw, old)} != 0)"

    def ranges(self):
        return [f"{least} <= v_{name} <= {greatest}" for name, (least, greatest, _) in self.places.items()]

    def assign(self, it):
        least, greatest, wrap = self.places[it.name]
        is_condition = it.expression.kind in CONDITIONS
        value = f"({self.condition(it.expression, None)} ? 1 : 0)" if is_condition else self.term(it.expression, None)
        if wrap:
            value = f"{least} + euclid_remainder({value} - {least}, {greatest - least + 1})"
        self.out += [f"v_{it.name} = {value};", f"//@ assert {least} <= v_{it.name} <= {greatest};"]

    def loop(self, at):
        """The head of a loop, with its assertions as invariants."""
        depth, names = 0, set()
        for it in self.statements[at:]:
            depth += (it.form == "LOOP") - (it.form == "ENDLOOP")
            if it.form == "ASSIGN":
                names.add(it.name)
            if depth == 0:
                break
        lines = [f"loop invariant {it};" for it in self.ranges()]
        for it in self.statements[at + 1 :]:
            if it.form != "ASSERT":
                break
            lines.append(f"loop invariant {self.condition(it.expression, chr(92) + 'at({}, Pre)')};")
        lines.append("loop assigns " + (", ".join(f"v_{it}" for it in sorted(names)) or "\\nothing") + ";")
        self.out += ["/*@ " + "\n  @ ".join(lines) + " */", "while (1) {"]

    def begin(self, pre):
        """The contract of a procedure and its opening."""
        assigned = ", ".join(f"v_{it}" for it in self.places)
        lines = [f"requires {it};" for it in self.ranges()]
        lines += [f"requires {self.condition(pre.expression, '{}')};"]
        lines += [f"assigns {assigned};", f"ensures {self.condition(self.post, chr(92) + 'old({})')};"]
        self.out += [f"static long v_{it};" for it in self.places]
        self.out += ["/*@ " + "\n  @ ".join(lines) + " */", f"void p_{self.procedures[-1]}(void) {{"]

    def declare(self, it):
        if it.form == "CONST":
            self.constants[it.name] = it.value
        elif it.form == "TYPE":
            self.types[it.name] = self.range_of(it.type_use)
        elif it.form == "ENUMERATION":
            self.types[it.name] = 0, len(it.values) - 1, False
            self.constants.update({name: at for at, name in enumerate(it.values)})
        elif it.form == "PROC":
            self.procedures.append(it.name)
            self.places = {}
        elif it.form in MODES:
            self.places[it.name] = self.range_of(it.type_use)

    def step(self, at, it):
        simple = {"ELSE": "} else {", "ENDIF": "}", "ENDLOOP": "}", "EXIT": "break;", "RETURN": "return;", "ENDPROC": "}"}
        if it.form == "ASSIGN":
            self.assign(it)
        elif it.form == "LOOP":
            self.loop(at)
        elif it.form == "IF":
            self.out.append(f"if {self.condition(it.expression, None)} {{")
        elif it.form == "EXIT WHEN":
            self.out.append(f"if {self.condition(it.expression, None)} break;")
        elif it.form == "ASSERT":
            self.out.append(f"//@ assert {self.condition(it.expression, chr(92) + 'at({}, Pre)')};")
        elif it.form in ("GOTO", "LABEL"):
            self.out.append(f"goto l_{it.name};" if it.form == "GOTO" else f"l_{it.name}: ;")
        elif it.form in simple:
            self.out.append(simple[it.form])
        elif it.form == "CALL":
            raise ValueError("a text with calls is not written as C")

    def translate(self):
        """Returns for each procedure its C name and a file of its own."""
        pre = None
        files = []
        for at, it in enumerate(self.statements):
            self.declare(it)
            if it.form == "PROC":
                self.out = [EUCLID]
            elif it.form == "PRE":
                pre = it
            elif it.form == "POST":
                self.post = it.expression
                self.begin(pre)
            else:
                self.step(at, it)
            if it.form == "ENDPROC":
                files.append((f"p_{self.procedures[-1]}", "\n".join(self.out) + "\n"))
        return files
