#!/usr/bin/env python3
"""Brings this repository's own definitions and lemmas to today's spelling, after the kit's port.py.

usage: python3 tools/respell.py      at the top of the repository, once

Words are in snake case, and types, modules and facts in camel case; a dash joins two names only where both are names of
functions (`count-append`). Names are turned in the .antt files and in the `ghost` items and clauses of the .rt files:
code, strings, goals' names (`returns-then-b`) and steps' names (`c.number_equals.ensures`) stay.
"""

import collections
import os
import re
import sys

TOKEN = re.compile(r"[^\s(){}\[\].,;:\"«»@]+")
SIGNATURE = re.compile(
    r"^(\s*)(?:abbrev |unfoldable )?(?:pub )?(?:abbrev |unfoldable )?([^\s(){}\[\].,;:\"]+)((?:\s+[^\s(){}\[\].,;:\"]+)*)\s*"
    r"(?:\([^)]*\)\s*|\{[^}]*\}\s*)*:\s(.*)$"
)
TYPE = re.compile(r"^\s*(?:pub )?(?:record|data) (?:pub )?([^\s(){}]+)")
WORDS = {"record", "where", "let", "in", "=", "λ", "elim", "pub", "ghost", "use", "data"}
# A dash stays between two functions' names.
DASHED = """count-append count-flat count-turned distinct-count flat-count flat-mem gathered-append get-mem has-mem keep-mem
length-text map-mem mem-count mem-flat mem-has mem-keep mem-map mem-numbered mem-reverse total-append units-text
causeAt-number length-rowsFrom rowsFrom-push natAbs-neg isUtf8-decides""".split()
# Functions that have the standard's names: those of a Number, and those that are no facts.
STANDARD = {
    "ToBoolean": "to_boolean",
    "ToInt32": "to_int32",
    "ToNumber": "to_number",
    "ToUint32": "to_uint32",
    "SameValue": "same_value",
    "IsLooselyEqual": "is_loosely_equal",
    "IsStrictlyEqual": "is_strictly_equal",
    "NaN": "not_a_number",
    "Infinity": "infinity",
}
# The library's tests, in the files that contracts cite.
TESTS = {"leb": "nat_le", "ltb": "nat_lt"}
# Names that would fall together with another of the repository's in one file.
OTHERS = {
    "assigned-on": "assigned_on_lem",
    "dead_end": "dead_end_case",
    "integer-of": "integer_of_lem",
    "new-number": "new_number_case",
    "parameter-again": "parameter_again_case",
    "reads-itself": "reads_itself_case",
    "takes-itself": "takes_itself_case",
    "whole-text": "whole_text_lem",
}
# In this crate the bare names are variants of the code's enums; the definitions stand behind a module's name.
VARIANTS = "vectors"


def snake(name):
    name = re.sub(r"^([A-Z]\w*)·", lambda m: m.group(1).lower() + "_", name)
    name = re.sub(r"([a-z0-9'])([A-Z]+)(?=$|[-_])", lambda m: m.group(1) + "_" + m.group(2).lower(), name)
    return re.sub(r"([a-z0-9'])([A-Z])", lambda m: m.group(1) + "_" + m.group(2).lower(), name)


def respelled(name):
    if name in STANDARD or name in OTHERS:
        return STANDARD.get(name) or OTHERS[name]
    turned = snake(name)
    return turned if name in DASHED else turned.replace("-", "_")


def files(end):
    for folder, dirs, names in os.walk("crates"):
        dirs[:] = sorted(d for d in dirs if d != "out")
        for name in sorted(names):
            if name.endswith(end):
                yield os.path.join(folder, name)


def is_generated(path):
    return os.path.basename(path) in ("Answers.antt", "Invariants.antt", "Proof.antt")


def declared():
    """The names that the repository's files of definitions and proofs declare, but for types and for answers to goals."""
    found = collections.defaultdict(set)
    for path in files(".antt"):
        for line in open(path, encoding="utf-8"):
            if line.strip().startswith("--") or line.startswith("use "):
                continue
            m = TYPE.match(line)
            if m:
                found[m.group(1)].add("type")
                continue
            m = SIGNATURE.match(line)
            if not m:
                continue
            for name in [m.group(2)] + m.group(3).split():
                if name not in WORDS:
                    found[name].add("goal" if is_generated(path) and "goal." in m.group(4) else "own")
    return {n for n, kinds in found.items() if "own" in kinds and "type" not in kinds and "goal" not in kinds}


def wants(name):
    # a prime may end a name; a numeral, an operator or a generated label may not
    return re.search(r"[a-z0-9][A-Z]", name) and name[0].islower() or "-" in name and name[0].isalpha() or "·" in name


def table():
    names = {n: respelled(n) for n in declared() if wants(n) or n in STANDARD or n in OTHERS}
    return {old: new for old, new in names.items() if old != new}


def clashes(names):
    """Names that fall together: two old ones, or a new one that already stands in the files."""
    seen = collections.defaultdict(set)
    for path in list(files(".antt")) + list(files(".rt")):
        for token in TOKEN.findall(open(path, encoding="utf-8").read()):
            seen[token].add(path)
    back = collections.defaultdict(set)
    for old, new in names.items():
        back[new].add(old)
    for new, olds in sorted(back.items()):
        if len(olds) > 1:
            print("look: fall together as", new, ":", *sorted(olds))
        if new in seen:
            print("look: stands already:", new, "for", *sorted(olds), "in", *sorted(seen[new])[:4])


def turn(text, names, crate):
    def one(m):
        token = m.group(0)
        behind_dot = text[m.start() - 1 : m.start()] == "."
        if token in STANDARD and crate == VARIANTS and not behind_dot:
            return token
        return names.get(token, token)

    return TOKEN.sub(one, text)


def turn_line(line, names, crate):
    """A line without its strings; an import names nothing twice."""
    parts = re.split(r'("(?:[^"\\]|\\.)*")', line)
    line = "".join(p if i % 2 else turn(p, names, crate) for i, p in enumerate(parts))
    imports = re.match(r"((?:ghost |pub )?use .*\.\{)(.*)(\};?)$", line)
    if not imports:
        return line
    listed = dict.fromkeys(n.strip() for n in imports.group(2).split(","))
    return imports.group(1) + ", ".join(listed) + imports.group(3)


def is_ghost(line):
    return re.match(r"\s*(ghost|requires|ensures)\b", line)


def main():
    names = table()
    clashes(names)
    for path in list(files(".antt")) + list(files(".rt")):
        crate = path.split(os.sep)[1]
        old = open(path, encoding="utf-8").read()
        lines = old.split("\n")
        every = path.endswith(".antt")
        turned = names if "/proofs/" in path else {**names, **TESTS}
        new = "\n".join(turn_line(l, turned, crate) if every or is_ghost(l) else l for l in lines)
        if new != old:
            with open(path, "w", encoding="utf-8") as f:
                f.write(new)
    print(len(names), "names respelled")
    if "-v" in sys.argv:
        for old, new in sorted(names.items()):
            print(old, new)


if __name__ == "__main__":
    main()
