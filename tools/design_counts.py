#!/usr/bin/env python3
"""Counts the places of crates/ that read like an older Rattle, by text: usage: design_counts.py [COMMIT] [--list POINT]
With no COMMIT the work tree. A line for each of eight points (the pattern is its second half), of which `kept` have a comment with `Stays:` in their
line, above it or above their function. --list POINT prints the places of one point as file:line: text. A count is no verdict: a place can be right."""
import argparse
import re

from design_texts import closing, texts

POINTS = {
    1: "enums of the shape of Option or Result and their uses, literal refusal numbers, structs with a bool beside a value",
    2: "functions of one crate whose names differ only in prop, tok, residual, u32, i32, f32, lower, higher, min, max",
    3: "`while` loops, and `for k in a..b` whose body indexes by k",
    4: "`as u64`, `as f64`, `as i64`, and functions named as a minimum, maximum, clamp, comparison or copy",
    5: "functions of 7 or more parameters",
    6: "parameters n, count, len, waiting beside a slice, and functions that take two or more of words, values, costs, gains",
    7: "bool parameters scored, uses, seeded, short, and tables of functions",
    8: "answers in proofs/*/Answers.antt",
}
SOURCES = r"crates/\w+/(src/.*\.rt|proofs/.*Answers\.antt)$"
TWIN_WORDS = set("prop props tok toks residual residuals res u8 u16 u32 u64 i32 f32 f64 usize lower higher min max smaller larger".split())
BY_HAND = re.compile(r"^(smaller|larger|min|max|clamp|eq|equal|equals|is_equal|copy|copied|same)(_\w+)?$")


def parts(text):
    """What commas at the top level part."""
    out, deep, last = [], 0, 0
    for k, c in enumerate(text):
        deep += (c in "([{<") - (c in ")]}" or (c == ">" and text[k - 1] != "-"))
        if c == "," and deep == 0:
            out.append(text[last:k].strip())
            last = k + 1
    return [p for p in out + [text[last:].strip()] if p]


class Source:
    """A source without its comments, clauses of contracts blanked, and its functions (name, place, parameters)."""
    def __init__(self, path, raw):
        self.path, self.lines = path, raw.split("\n")
        self.text = re.sub(r"//[^\n]*", lambda m: " " * len(m.group(0)), raw)
        for m in re.finditer(r"\b(requires|ensures|invariant|decreases)\b[\w ]*\{", self.text):
            end = closing(self.text, m.end() - 1) + 1
            self.text = self.text[: m.start()] + re.sub(r"[^\n]", " ", self.text[m.start() : end]) + self.text[end:]
        self.functions = []
        for m in re.finditer(r"\bfn (\w+)\s*(<[^(]*>)?\s*\(", self.text):
            self.functions.append((m.group(1), m.start(), parts(self.text[m.end() : closing(self.text, m.end() - 1)])))

    def line(self, at):
        return self.text.count("\n", 0, at) + 1

    def kept(self, line):
        """Whether a comment says that the place stays: in its line, above it, or above its function."""
        starts = [self.line(at) for _, at, _ in self.functions if self.line(at) <= line]
        above = {line - 1, *(n - 1 for n in starts[-1:])}
        for k in sorted(above, reverse=True):
            while k > 0 and re.match(r"\s*(//|#\[)", self.lines[k - 1]):
                k -= 1
                above.add(k)
        return any("Stays:" in self.lines[k] for k in above)


def options(source):
    """The enums of the shape of Option or Result."""
    for m in re.finditer(r"\benum (\w+)(<[^{]*>)?\s*\{", source.text):
        variants = parts(re.sub(r"#\[[^\]]*\]", "", source.text[m.end() : closing(source.text, m.end() - 1)]))
        bare = [re.fullmatch(r"\w+", v) is not None for v in variants]
        if len(variants) == 2 and (bare.count(True) == 1 or any(v.startswith("Refused") for v in variants)):
            yield m.group(1), m.start()


def places(source, enums, twins):
    """(point, place) of each place of points 1 to 7."""
    text = source.text
    found = [(1, at) for _, at in options(source)]
    if enums:
        found += [(1, m.start()) for m in re.finditer(r"\b(%s)::[A-Z]\w*" % "|".join(sorted(enums)), text)]
    found += [(1, m.start()) for m in re.finditer(r"\brefused\(\s*\d+|\bnumber: \d+", text)]
    for m in re.finditer(r"\bstruct \w+(<[^{;]*>)?\s*\{", text):
        fields = parts(text[m.end() : closing(text, m.end() - 1)])
        found += [(1, m.start())] * (len(fields) > 1 and any(re.search(r": bool$", f) for f in fields))
    found += [(3, m.start()) for m in re.finditer(r"\bwhile\b", text)]
    for m in re.finditer(r"\bfor (\w+) in [^{;]*\.\.[^{;]*\{", text):
        body = text[m.end() : closing(text, m.end() - 1)]
        found += [(3, m.start())] * bool(re.search(r"\[%s(\]| )" % m.group(1), body))
    found += [(4, m.start()) for m in re.finditer(r"\bas (u64|f64|i64)\b", text)]
    for name, at, given in source.functions:
        slices = any(re.search(r": *&('\w+ )?(mut )?\[", g) for g in given)
        lists = sum(bool(re.match(r"(words|values|costs|gains): *&", g)) for g in given)
        found += [(2, at)] * (name in twins)
        found += [(4, at)] * bool(BY_HAND.match(name))
        found += [(5, at)] * (len(given) >= 7)
        found += [(6, at)] * (slices * sum(bool(re.match(r"(n|count|len|length|waiting): usize$", g)) for g in given) + (lists >= 2))
        found += [(7, at)] * sum(bool(re.match(r"(scored|uses|seeded|short)\w*: bool$", g)) for g in given)
    return found + [(7, m.start()) for m in re.finditer(r"\[fn\s*\(", text)]


def main():
    ask = argparse.ArgumentParser(description=__doc__)
    ask.add_argument("commit", nargs="?")
    ask.add_argument("--list", type=int, choices=sorted(POINTS))
    given = ask.parse_args()
    files = texts(given.commit, SOURCES)
    sources = [Source(p, t) for p, t in files.items() if p.endswith(".rt")]
    enums = {name for s in sources for name, _ in options(s)}
    groups = {}
    for s in sources:
        for name, _, _ in s.functions:
            rest = "_".join(w for w in name.split("_") if w not in TWIN_WORDS)
            groups.setdefault((s.path.split("/")[1], rest), set()).add(name)
    count, kept = dict.fromkeys(POINTS, 0), dict.fromkeys(POINTS, 0)
    for s in sources:
        twins = {n for (crate, _), names in groups.items() if crate == s.path.split("/")[1] and len(names) > 1 for n in names}
        for point, at in sorted(places(s, enums, twins)):
            line = s.line(at)
            count[point] += 1
            kept[point] += s.kept(line)
            print("%s:%d: %s\n" % (s.path, line, s.lines[line - 1].strip()) * (point == given.list), end="")
    for path, text in files.items():
        for m in re.finditer(r"^pub (\S+) : goal\.\1$", text, re.M) if path.endswith(".antt") else ():
            count[8] += 1
            if given.list == 8:
                print("%s:%d: %s" % (path, text.count("\n", 0, m.start()) + 1, m.group(0)))
    for point, pattern in POINTS.items() if given.list is None else ():
        print("%d: %5d, kept %4d  %s" % (point, count[point], kept[point], pattern))


main()
