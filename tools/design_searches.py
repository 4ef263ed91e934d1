#!/usr/bin/env python3
"""Counts the same places as design_counts.py in another way, by plain searches of the lines of crates/*/src: usage: design_searches.py [COMMIT]
With no COMMIT the work tree. A line for each search: its point, how many lines fit, and what was searched for."""
import re
import sys

from design_texts import texts

NUMBERS = "u8|u16|u32|u64|i32|i64|usize|f32|f64"
ENUMS = "Check|Found|Learned|Contexts|Sampled|TokenValue|Fault|Offer|Twin|Best|Plan|Score"
SEARCHES = [
    (1, "enums of the shape of Option or Result, by name", rf"\b({ENUMS})::"),
    (1, "refusals by number", r"number: [0-9]|refused\([0-9]|refuse\([0-9]"),
    (2, "functions named for a type or a list", r"fn \w+_(u8|u32|i32|f32|props?|toks?|residuals?)(<[^(]*>)?\("),
    (3, "`while`, and `for .. in` a range", r"^\s*while |^\s*('\w+: )?for .* in .*\.\."),
    (3, "`+= 1` and `-= 1`", r"[+-]= 1;"),
    (4, "casts by `as` to a number", rf"\bas ({NUMBERS})\b"),
    (6, "`words`, `values`, `costs` or `gains` lent as a slice", r"\b(words|values|costs|gains): &"),
    (7, "`bool` parameters and fields", r"\b\w+: bool\b"),
]
PARAMETERS = re.compile(r"\bfn\s+\w+[^(]*\(([^)]*(?:\([^)]*\)[^)]*)*)\)")


def main():
    commit = sys.argv[1] if len(sys.argv) > 1 else None
    sources = texts(commit, r"crates/\w+/src/.*\.rt$")
    lines = [line for text in sources.values() for line in text.split("\n")]
    for point, name, pattern in SEARCHES:
        print(f"{point} {sum(1 for line in lines if re.search(pattern, line)):6} {name}: {pattern}")
    many = sum(1 for text in sources.values() for found in PARAMETERS.finditer(text)
               if len([p for p in re.split(r",(?![^<\[]*[>\]])", found.group(1)) if p.strip()]) >= 7)
    print(f"5 {many:6} functions of seven parameters and more")
    proofs = texts(commit, r"crates/\w+/proofs/.*\.antt$")
    size = {path: text.count("\n") for path, text in proofs.items()}
    print(f"8 {sum(size.values()):6} lines of proofs/")
    print(f"8 {sum(n for path, n in size.items() if '/' in path.split('/proofs/')[1]):6} lines of proofs/ that belong to one function")


main()
