"""Reads a text by a TextMate grammar as VS Code does: line by line, each with its newline, by the regular expressions of Oniguruma, the
library that VS Code has inside. Where it is not on this machine, those of Python stand in."""
import ctypes
import ctypes.util
import re

CAPTURE_GROUPS = 1 << 8


class Region(ctypes.Structure):
    _fields_ = [("allocated", ctypes.c_int), ("count", ctypes.c_int), ("begins", ctypes.POINTER(ctypes.c_int)), ("ends", ctypes.POINTER(ctypes.c_int))]


def load():
    name = ctypes.util.find_library("onig")
    if name is None:
        return None
    library = ctypes.CDLL(name)
    library.onig_region_new.restype = ctypes.POINTER(Region)
    library.onig_search.argtypes = [ctypes.c_void_p] * 5 + [ctypes.POINTER(Region), ctypes.c_uint]
    library.onig_new.argtypes = [ctypes.POINTER(ctypes.c_void_p), ctypes.c_void_p, ctypes.c_void_p, ctypes.c_uint, ctypes.c_void_p, ctypes.c_void_p, ctypes.c_void_p]
    return library


ONIG = load()


class OfPython:
    """A compiled expression of Python."""

    def __init__(self, text):
        self.made = re.compile(text.encode("ascii"))

    def search(self, line, at):
        """The spans of the whole and of each group of the first match from a place on, or None."""
        found = self.made.search(line, at)
        return found and [found.span(it) for it in range(self.made.groups + 1)]


class OfOniguruma:
    """A compiled expression of Oniguruma; one that it refuses is a ValueError."""

    def __init__(self, text):
        data = text.encode("utf-8")
        held = ctypes.create_string_buffer(data, len(data) + 1)
        at = ctypes.addressof(held)
        encoding = ctypes.addressof(ctypes.c_byte.in_dll(ONIG, "OnigEncodingUTF8"))
        syntax = ctypes.addressof(ctypes.c_byte.in_dll(ONIG, "OnigSyntaxOniguruma"))
        self.made = ctypes.c_void_p()
        self.region = ONIG.onig_region_new()
        error = ONIG.onig_new(ctypes.byref(self.made), at, at + len(data), CAPTURE_GROUPS, encoding, syntax, ctypes.create_string_buffer(64))
        if error:
            raise ValueError(f"Oniguruma refuses {text!r}: {error}")

    def search(self, line, at):
        """The same as Python's."""
        held = ctypes.create_string_buffer(line, len(line) + 1)
        first = ctypes.addressof(held)
        if ONIG.onig_search(self.made, first, first + len(line), first + at, first + len(line), self.region, 0) < 0:
            return None
        found = self.region.contents
        return [(found.begins[it], found.ends[it]) for it in range(found.count)]


def engines():
    """What compiles expressions on this machine."""
    return [OfPython, OfOniguruma] if ONIG else [OfPython]


class Reader:
    """Reads lines by a grammar of rules without nesting: at each place the rule that matches first, the earlier one of two; a rule with
    begin and end goes on over lines."""

    def __init__(self, grammar, engine):
        rules = grammar["patterns"]
        self.rules = [(it, engine(it.get("match") or it["begin"]), engine(it["end"]) if "end" in it else None) for it in rules]
        self.open = None

    def line(self, line):
        """The innermost scope of each byte of a line."""
        scopes, at = [""] * len(line), 0
        while at < len(line):
            at = self.close(line, at, scopes) if self.open else self.match(line, at, scopes)
        return scopes

    def close(self, line, at, scopes):
        rule, _, end = self.open
        found = end.search(line, at)
        upto = found[0][1] if found else len(line)
        scopes[at:upto] = [rule["name"]] * (upto - at)
        if found:
            self.open = None
        return upto

    def match(self, line, at, scopes):
        tried = [(found[0][0], number, found) for number, (_, pattern, _) in enumerate(self.rules) if (found := pattern.search(line, at))]
        if not tried:
            return len(line)
        start, number, found = min(tried)
        rule, _, end = self.rules[number]
        upto = found[0][1]
        scopes[start:upto] = [rule.get("name", "")] * (upto - start)
        for group, capture in rule.get("captures", {}).items():
            first, last = found[int(group)]
            scopes[first:last] = [capture["name"]] * (last - first)
        if end:
            self.open = self.rules[number]
        return max(upto, at + 1)


def scopes_of(text, grammar, engine):
    """The innermost scope of each byte of a text."""
    reader = Reader(grammar, engine)
    return [scope for line in text.encode("ascii").splitlines(keepends=True) for scope in reader.line(line)]
