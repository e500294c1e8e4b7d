#!/usr/bin/env python3
"""Counts forms of an older Rattle in the sources of the crates that are no tests.

usage: python3 tools/count_forms.py [-v] [FOLDER]      FOLDER holds crates/ (default: here); -v prints the places
"""
import os
import re
import sys

# name, pattern, flags: a pattern is looked for in each file's text
FORMS = [
    ("1 refusal as Option of a fault", r"\bfn \w+[^{;]*-> Option<\w+Fault>"),
    ("1 refusal as bool in a Result", r"\bfn \w+[^{;]*-> Result<bool,"),
    ("1 number for a kind or a tag", r"^\s*(?:let mut |pub(?:\(\w+\))? )?(?:last_tag|tag|side|switch): u8\b|\((?:[^()]*[ (])?(?:last_tag|tag|side|switch): u8\b"),
    ("1 flag that says that a record was seen", r"\bhas_\w+: bool,"),
    ("1 want of memory made by hand", r"Err\(AllocError\)"),
    ("2 split of one type", r"\bfn split_\w+[(<]"),
    ("2 view of elements in bytes", r"^pub struct (?:Blocks|Points|Terms)<'a>"),
    ("2 test of the conditions", r"\bfn (?:is_limit|is_price|are_limits|is_coefficient|is_side|is_sound_side|are_in_order|are_sides|are_sound_sides|terms_in_range|terms_refer|terms_rise|are_terms|is_nought|fits_switch|is_next|rises)\("),
    ("3 while", r"^\s*while "),
    ("3 for over numbers", r"\bfor \w+ in 0\.\."),
    ("4 match that rebuilds", r"^\s*None => None,|^\s*Err\((\w+)\) => Err\((?!AllocError)|^\s*Ok\((\w+)\) => Ok\(\2\)"),
    ("4 match with a default", r"^\s*None => (?:true|false|0),"),
    ("4 test, then Some, else None", r"\} else \{\s*None\s*\}|else \{ None \}"),
    ("4 comparison of variants as numbers", r" as u8 =="),
    ("5 requires of the setting", r"requires \{ Small setting \}"),
    ("5 requires of the place begun", r"place \+ 1 ≡ begun table\.old"),
    ("5 requires of the costs' length", r"requires[^\n]*\.columns ≤ length costs"),
    ("6 start and count of a slice elsewhere", r"^\s*(?:pub(?:\(\w+\))? )?start: usize,\n\s*(?:pub(?:\(\w+\))? )?count: usize,"),
    ("6 array with its length beside", r"\[\w+; \d+\],\n"),
    ("7 flag that picks a step", r"\bbought: bool"),
    ("7 twins that differ in a test", r"\bfn (?:greater|lower|first_large|first_sideless)[(<]"),
]


def main():
    args = sys.argv[1:]
    verbose = "-v" in args
    rest = [a for a in args if a != "-v"]
    top = os.path.join(rest[0] if rest else ".", "crates")
    files = []
    for crate in sorted(os.listdir(top)):
        if crate.endswith("_tests"):
            continue
        for folder, _, names in os.walk(os.path.join(top, crate, "src")):
            files += [os.path.join(folder, n) for n in sorted(names) if n.endswith(".rt")]
    for name, pattern in FORMS:
        found = []
        for path in files:
            text = open(path, encoding="utf-8").read()
            for m in re.finditer(pattern, text, re.M):
                line = text.count("\n", 0, m.start()) + 1
                found.append((os.path.relpath(path, top), line, m.group(0).strip().split("\n")[0]))
        print(f"{name}: {len(found)}")
        if verbose:
            for f, n, t in found:
                print(f"    {f}:{n}: {t}")


main()
