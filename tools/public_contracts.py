#!/usr/bin/env python3
"""Lists the public functions, structs, enums and type invariants that differ between two folders with crates/.

usage: python3 tools/public_contracts.py OLD NEW      prints Markdown: old and new text of each that changed, went or came
"""
import os
import re
import sys

HEAD = re.compile(r"^(\s*)(?:(pub(?:\([a-z]+\))? )?(?:final )?(?:const )?fn (\w+)|(pub )?(struct|enum|trait) (\w+)|impl\b(.*))", re.M)


def squeeze(s):
    s = re.sub(r"\s+", " ", s).strip()
    return s.replace(", )", ")").replace("( ", "(")


def items_of(path):
    """yields (kind, owner, name, text) of the public items of a file"""
    lines = open(path, encoding="utf-8").read().split("\n")
    owner, trait, in_tests = "", None, False
    i = 0
    while i < len(lines):
        line = lines[i]
        if line.startswith("#[cfg(test)]"):
            break
        m = re.match(r"^impl(<[^{]*?>)? (.*?)\s*\{?$", line)
        if line.startswith("impl"):
            text = line
            while "{" not in text:
                i += 1
                text += " " + lines[i].strip()
            head = re.sub(r"^impl(<.*?>(?= ))? ", "", text.split("{")[0].strip())
            head = re.sub(r"^<[^ ]*> ", "", head)
            owner = re.sub(r"<.*?>", "", head.split(" for ")[-1]).strip()
            trait = head.split(" for ")[0].strip() if " for " in head else None
            i += 1
            continue
        if line == "}":
            owner, trait = "", None
            i += 1
            continue
        m = re.match(r"^pub trait (\w+)", line)
        if m:
            owner, trait = m.group(1), "trait"
            i += 1
            continue
        m = re.match(r"^\s*(pub )?fn (\w+)", line)
        if m and (m.group(1) or trait == "trait"):
            text = line
            while True:
                if lines[i].rstrip() in ("{", "    {") or lines[i].rstrip().endswith(";") or re.search(r"\)( -> .*)? \{$", lines[i]):
                    break
                i += 1
                if lines[i].rstrip() in ("{", "    {"):
                    break
                text += "\n" + lines[i]
            text = re.sub(r"\s*\{$", "", text)
            yield "fn", owner, m.group(2), squeeze(text)
            i += 1
            continue
        m = re.match(r"^pub (struct|enum) (\w+)", line)
        if m:
            text = line
            if not line.endswith(";") and not line.endswith("}"):
                while lines[i] != "}":
                    i += 1
                    text += "\n" + lines[i]
            text = re.sub(r"///[^\n]*", "", text)
            yield m.group(1), "", m.group(2), squeeze(text)
            i += 1
            continue
        m = re.match(r"^pub (const|type) (\w+)", line)
        if m:
            yield m.group(1), "", m.group(2), squeeze(line)
        i += 1


def table(top):
    out = {}
    crates = os.path.join(top, "crates")
    for crate in sorted(os.listdir(crates)):
        if crate.endswith("_tests"):
            continue
        for folder, _, names in os.walk(os.path.join(crates, crate, "src")):
            for n in sorted(names):
                if n.endswith(".rt"):
                    for kind, owner, name, text in items_of(os.path.join(folder, n)):
                        full = f"{owner}::{name}" if owner else name
                        out.setdefault((crate, full), []).append(text)
    return out


def main():
    old, new = table(sys.argv[1]), table(sys.argv[2])
    for crate in sorted({c for c, _ in list(old) + list(new)}):
        rows = []
        for c, name in sorted(set(old) | set(new)):
            if c != crate or old.get((c, name)) == new.get((c, name)):
                continue
            a = " / ".join(old.get((c, name), [])) or "-"
            b = " / ".join(new.get((c, name), [])) or "-"
            rows.append((name, a, b))
        if rows:
            print(f"### {crate}\n")
            for name, a, b in rows:
                print(f"- **{name}**")
                print(f"  - old: `{a}`" if a != "-" else "  - old: none")
                print(f"  - new: `{b}`" if b != "-" else "  - new: none")
            print()


main()
