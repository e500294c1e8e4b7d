#!/usr/bin/env python3
"""Brings the repository's own definitions and lemmas to the spelling of the installed Rattle, once, after its port.py.

usage: python3 tools/respell.py        at the top of the repository

Types, records and facts are in camel case (Is-file is IsFile), everything else in snake case (body-of is body_of);
a lemma on the length of a function's result keeps its dash (length-row). Names that Rattle generates, and names of
std, are left. Only .antt files, and the clauses and ghost lines of .rt files, are written; strings and comments stay.
"""
import os
import re
import sys

LETTER = r"A-Za-z0-9_'\u2261\u2237\u2264\u2115\u2124\u228e\u2219\u25cc"
TOKEN = re.compile(rf"(?<![{LETTER}\-])[A-Za-z][A-Za-z0-9_']*(?:-[A-Za-z0-9_']+)*(?![{LETTER}\-])")
DECLARED = re.compile(
    r"^\s*(?:(?:abbrev|unfoldable|pub|record|data)\s+)*(?P<name>[A-Za-z][^\s(){};,.:=]*)\s*(?:\{[^}]*\}\s*|\([^:]*:[^)]*\)\s*)*:(?![:=])"
)
RULESET = re.compile(r"^\s*(?:pub\s+)?ruleset\s+(?P<name>[^\s=]+)")
BOUND = re.compile(r"(?:\blet\s+|[({]\s*|\s)(?P<name>[a-z][A-Za-z0-9_']*(?:-[A-Za-z0-9_']+)+)(?=\s*(?:[:)]|\s[a-zA-Z' -]*:))")
GOAL = re.compile(r"\b(?:goal|given|need)\.([^\s(){};,]+)")
CLAUSE_NAME = re.compile(r"D(?:-\d+)+$")
STD = re.compile(r"use\s+(Rattle\.std[^{;\n]*|borrow[^{;\n]*|Prim[^{;\n]*|mathlib[^{;\n]*|native[^{;\n]*|lib[^{;\n]*)\.\{([^}]*)\}")
FIXED = {"Free-of": "free_of", "Ending-at": "ending_at", "Too-large": "IsTooLarge", "last-tag": "tag_of_last", "getD-none": "get_or_none", "every-getD": "every_get_or"}


def files(kind):
    for root, dirs, names in os.walk("crates"):
        dirs[:] = sorted(d for d in dirs if d != "out")
        for n in sorted(names):
            if n.endswith(kind):
                yield os.path.join(root, n)


def read(p):
    with open(p, encoding="utf-8") as f:
        return f.read()


def spelled(name):
    if name in FIXED:
        return FIXED[name]
    if CLAUSE_NAME.match(name):
        return name.lower().replace("-", "_")
    if name[0].isupper():
        head, *rest = name.split("-")
        return head + "".join(r[0].upper() + r[1:] for r in rest)
    if name.startswith("length-"):
        return "length-" + name[len("length-"):].replace("-", "_")
    return name.replace("-", "_")


def own_names():
    goals, names, all_names, std = set(), set(), set(), set()
    for p in files(".antt"):
        t = read(p)
        goals |= set(GOAL.findall(t))
        for m in STD.finditer(t):
            for it in m.group(2).split(","):
                words = it.split()
                if words:
                    std.add(words[-1])
        for line in t.split("\n"):
            if line.lstrip().startswith("--"):
                continue
            for pattern in (DECLARED, RULESET):
                m = pattern.match(line)
                if m:
                    all_names.add(m.group("name"))
                    if "-" in m.group("name"):
                        names.add(m.group("name"))
            for m in BOUND.finditer(line):
                names.add(m.group("name"))
            names.update(re.findall(r"\bas\s+([a-z][A-Za-z0-9_']*(?:-[A-Za-z0-9_']+)+)", line))
    for p in files(".rt"):
        for line in re.findall(r"(?m)^ghost use .*$", read(p)):
            names.update(re.findall(r"\bas\s+([A-Za-z][A-Za-z0-9_']*(?:-[A-Za-z0-9_']+)+)", line))
    return {n for n in names if n not in goals}, all_names, std


def turn_text(t, table):
    return TOKEN.sub(lambda m: table.get(m.group(0), m.group(0)), t)


def turn_antt(t, table):
    out = []
    for line in t.split("\n"):
        code, dashes, comment = line, "", ""
        m = re.search(r"(?:^|\s)--(?:\s|$)", line)
        if m:
            code, comment = line[:m.start()], line[m.start():]
        out.append(turn_text(code, table) + comment)
    return "\n".join(out)


def turn_rt(t, table):
    out = []
    for line in t.split("\n"):
        m = re.search(r"(?:^|\s)//", line)
        code, comment = (line[:m.start()], line[m.start():]) if m else (line, "")
        parts = re.split(r'("(?:[^"\\]|\\.)*")', code)
        out.append("".join(p if i % 2 else turn_text(p, table) for i, p in enumerate(parts)) + comment)
    return "\n".join(out)


def main():
    names, all_names, std = own_names()
    table = {n: spelled(n) for n in names if spelled(n) != n}
    both = sorted(n for n in table if n in std)
    for n in both:
        print(f"left: {n} is imported from the library somewhere")
        del table[n]
    made = {}
    for n, s in sorted(table.items()):
        if s in made:
            print(f"clash: {n} and {made[s]} are both {s}")
        made[s] = n
        if s in all_names or s in std:
            print(f"look: {n} becomes {s}, which is there too")
    if "--dry" in sys.argv:
        for n, s in sorted(table.items()):
            print(n, s)
        return
    for kind, turn in ((".antt", turn_antt), (".rt", turn_rt)):
        for p in files(kind):
            t = read(p)
            u = turn(t, table)
            if u != t:
                with open(p, "w", encoding="utf-8") as f:
                    f.write(u)
    print(f"{len(table)} names")


main()
