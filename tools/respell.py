#!/usr/bin/env python3
"""Respells the repository's own names as today's Rattle spells them: words in snake case, types in camel case.

usage: python3 tools/respell.py [--show]      at the top of the repository, once, right behind the kit's port.py

What is a name of the repository's own is read off crates/*/specs and crates/*/proofs: what is declared there. A name in camel case, as rowsHeld, becomes rows_held;
one that names a type, as anyCost, becomes AnyCost. Dashes become underscores, but between two names that are both declared or brought in, as in length-rows_in,
where the kit's style joins by a dash; a field always has underscores. A part that begins with a capital keeps it: it names a type.
A lemma that would meet a definition of its spelling gets _lem. Names that are brought in from the kit's libraries stay in the files that bring them in.
Names of src/ and exported C names are in snake case already and stay. The pages' code spans follow. --show prints the table and writes nothing.
"""

import collections
import os
import re
import sys

WORD = re.compile(r'[^\s(){}.;,@"«»]+')
PAGE_WORD = re.compile(r"[^\s(){}.;,@\"«»`*|→]+")
DECLARED = re.compile(
    r"^( *)((?:(?:abbrev|unfoldable|pub|record|data) )*)([A-Za-zλ_][^\s(){}.;,@\"«»]*)((?: \{[^}\n]*\}| \([^)\n]*\))*) :(?: (.*))?$"
)
USE = re.compile(r"\buse ([\w.◌']+?)\.\{([^}]*)\}")
# Variables in camel case that stand in definitions.
BOUND = ["atMost", "logLe", "logGt", "queueWords", "queueValues", "queueGains"]
# Lemmas inside a module, and files, where a definition's new spelling would meet a name of that file.
LOCAL = {
    ("crates/contexts/proofs/Numbering.antt", "is_IsLeaf"): "leafy",
    ("crates/model/proofs/Seeds.antt", "is_leaf"): "is_leaf_lem",
    ("crates/seed_leaves/proofs/Walking.antt", "is_leaf"): "is_leaf_lem",
}


def files(root):
    for folder, dirs, names in os.walk(root):
        dirs[:] = sorted(d for d in dirs if d not in ("out", "target", ".git"))
        for name in sorted(names):
            yield os.path.join(folder, name)


def read(path):
    with open(path, encoding="utf-8") as f:
        return f.read()


def code(path, text):
    """The text without its comments."""
    return re.sub(r"(?<!\S)--.*" if path.endswith(".antt") else r"//.*", "", text)


def snake(word):
    word = re.sub(r"(?<=[a-z0-9])(?=[A-Z])", "_", word)
    return re.sub(r"(?<=[A-Z])(?=[A-Z][a-z])", "_", word).lower()


def declarations(path, text):
    """Each declared name of a proof file, whether it is a field, and the last line of its type as far as it goes."""
    lines = code(path, text).split("\n")
    record = None
    for at, line in enumerate(lines):
        found = DECLARED.match(line)
        if not found:
            continue
        indent = len(found[1])
        if record is not None and indent <= record:
            record = None
        words = found[2].split()
        kind = found[5] or ""
        for more in lines[at + 1 :]:
            if not more.startswith(" " * (indent + 4)):
                break
            kind += " " + more.strip()
        yield found[3], record is not None and "record" not in words, kind
        if "record" in words:
            record = indent


def table(texts):
    owned = set(os.listdir("crates"))
    own, field, types, brought = set(), set(), set(), set()
    for path, text in texts.items():
        if path.endswith(".antt"):
            proof = path.endswith("/Proof.antt")
            for name, inside, kind in declarations(path, text):
                if proof and re.search(r"\btie\.", kind):
                    continue
                own.add(name)
                if inside:
                    field.add(name)
                elif re.search(r"Type 0$", kind.strip()) and not name[0].isupper():
                    types.add(name)
        for found in USE.finditer(code(path, text)):
            head = found[1].split(".")
            if not (head[0] == "Rattle" and len(head) > 1 and head[1] in owned):
                brought |= {w.strip().split(" as ")[-1].strip() for w in found[2].split(",")}
    known = own | brought

    def new(name):
        parts = name.split("-")
        spelled = [p if p[:1].isupper() else snake(p) for p in parts]
        if name in types:
            return "".join(w[:1].upper() + w[1:] for p in spelled for w in p.split("_"))
        joined = len(parts) == 2 and name not in field and all(p in known for p in parts)
        return ("-" if joined else "_").join(spelled)

    rows = {n: new(n) for n in sorted(own) if n[0].islower() and new(n) != n}
    functions = {rows[n] for n in rows if "-" not in n} | {n for n in own if "-" not in n}
    for name in rows:
        if "-" in name and rows[name] in functions:
            rows[name] += "_lem"
    return rows | {n: new(n) for n in BOUND}


def imported(path, text, owned):
    out = set()
    for found in USE.finditer(code(path, text)):
        head = found[1].split(".")
        if not (head[0] == "Rattle" and len(head) > 1 and head[1] in owned):
            out |= {w.strip().split(" as ")[-1].strip() for w in found[2].split(",")}
    return out


def turned(path, text, rows, stay):
    def word(found):
        name = found[0]
        local = LOCAL.get((path, name))
        if local:
            return local
        return rows.get(name, name) if name not in stay else name

    if path.endswith(".md"):
        # code, and theorems in italics
        return re.sub(r"`[^`\n]+`|\*[\w.,' -]+\*", lambda span: PAGE_WORD.sub(word, span[0]), text)
    if path.endswith(".rt"):
        return WORD.sub(lambda f: word(f) if re.search(r"[a-z0-9][A-Z]", f[0]) else f[0], text)
    return WORD.sub(word, text)


def main(argv):
    owned = set(os.listdir("crates"))
    texts = {p: read(p) for p in files("crates") if p.endswith((".rt", ".antt"))}
    rows = table(texts)
    if argv == ["--show"]:
        print("\n".join(f"{a}\t{b}" for a, b in rows.items()))
        return 0
    pages = {p[2:]: read(p) for p in files(".") if p.endswith(".md")}
    changed = 0
    for path, text in (texts | pages).items():
        after = turned(path, text, rows, imported(path, text, owned))
        if after != text:
            changed += 1
            with open(path, "w", encoding="utf-8") as f:
                f.write(after)
    print(f"respell: {len(rows)} names, {changed} files")
    return 0


if __name__ == "__main__":
    raise SystemExit(main(sys.argv[1:]))
