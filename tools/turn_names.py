#!/usr/bin/env python3
"""Turns the names that Rattle generates to the installed spelling, in the proof files of one crate's functions.

usage: python3 tools/turn_names.py CRATE..        at the top of the repository

An older Rattle joined all words of a generated name by dashes (from-be-bytes-long); the installed one keeps the
underscores of source names (from_be_bytes-long). For each function the check lists the names that it generates;
a token of its proof files that differs from just one of them by dashes and underscores alone becomes that one.
"""
import json
import os
import re
import subprocess
import sys
import tempfile

FIXED = {"type-inv": "type_inv", "well-formed": "well_formed"}
TOKEN = re.compile(r"(?<![A-Za-z0-9_'\-])[A-Za-z][A-Za-z0-9_']*(?:-[A-Za-z0-9_']+)*(?![A-Za-z0-9_'\-])")


def strings(x, out):
    if isinstance(x, str):
        out.add(x)
    elif isinstance(x, list):
        for y in x:
            strings(y, out)
    elif isinstance(x, dict):
        for k, y in x.items():
            out.add(k)
            strings(y, out)


def plain(s):
    return s.replace("_", "-")


def names_of(d):
    out, old = set(), set()
    for pair in d["needs"]:
        out.add(pair[1])
        old.add(pair[0])
    for p in d["places"]:
        if p[2]:
            out.add(p[2][1])
            old.add(p[2][0])
        for extra in p[4:]:
            strings(extra, out)
    out |= set(d["places_by_name"])
    for a in d["arms"]:
        if a:
            out.add(a[0])
    for lp in d["loops"]:
        strings(lp, out)
    strings(d["asked_at"], out)
    strings(d["settled"], out)
    strings(d["changed"], out)
    more = set()
    for n in out:
        if n[:5] in ("Then-", "Else-", "Loop-") or n[:3] in ("In-", "In_"):
            more.add(n[0].lower() + n[1:])
    return {n for n in out | more if re.fullmatch(r"[A-Za-z][A-Za-z0-9_'\-]*", n)}


def turn(text, valid, imported):
    by_plain = {}
    for v in valid:
        by_plain.setdefault(plain(v), set()).add(v)

    def one(m):
        t = m.group(0)
        if t in valid or t in imported:
            return t
        if t in FIXED:
            return FIXED[t]
        if "-" not in t and "_" not in t:
            return t
        for prefix in ("invariant-", "decreases-"):
            if t.startswith(prefix) and len(by_plain.get(plain(t[len(prefix):]), ())) == 1:
                return prefix + next(iter(by_plain[plain(t[len(prefix):])]))
        found = by_plain.get(plain(t), set())
        if not found and re.match(r"(returns-)?in[-_](ok|err)-", t):
            found = {v for v in valid if plain(v).startswith(plain(t) + "-in-") and "-clause" not in v}
        return next(iter(found)) if len(found) == 1 else t

    return TOKEN.sub(one, text)


def folder(key):
    if "-proofs." not in key:
        return key
    path = key.split("-proofs.", 1)[1]
    return path[: -len(".Lts")] if path.endswith(".Lts") else path


def main():
    for crate in sys.argv[1:]:
        where = os.path.join("crates", crate)
        with tempfile.TemporaryDirectory() as d:
            r = subprocess.run(["rt", "check", "--generated", d, "--old-names"], cwd=where, capture_output=True, text=True)
            p = os.path.join(d, "names.json")
            if not os.path.exists(p):
                print(r.stdout[-3000:] + r.stderr[-3000:])
                raise SystemExit(1)
            with open(p) as f:
                names = json.load(f)
        byfolder = {}
        for key, val in names.items():
            if "-proofs." not in key:
                continue
            byfolder.setdefault(folder(key), set()).update(names_of(val))
        n = 0
        for root, dirs, files in os.walk(os.path.join(where, "proofs")):
            rel = os.path.relpath(root, os.path.join(where, "proofs"))
            if rel == ".":
                continue
            valid = byfolder.get(rel.replace(os.sep, "."))
            for f in files:
                if not f.endswith(".antt"):
                    continue
                q = os.path.join(root, f)
                if valid is None:
                    print("no names for", q)
                    continue
                with open(q) as h:
                    t = h.read()
                imported = set()
                for m in re.finditer(r"use [^{\n]*\{([^}]*)\}", t):
                    if "Goals" in m.group(0) or "Given" in m.group(0):
                        continue
                    for it in m.group(1).split(","):
                        if it.split():
                            imported.add(it.split()[-1])
                u = turn(t, valid, imported)
                if u != t:
                    n += 1
                    with open(q, "w") as h:
                        h.write(u)
        print(f"{crate}: {n} files")


main()
