#!/usr/bin/env python3
"""Sets the public functions and the definitions of specs/ of the work tree beside those of a commit, as Markdown: usage: design_beside.py COMMIT [> PAGE.md]

A fold per crate with each function (signature and clauses) and each definition whose words differ, old on the left, new on the right, then those that
are gone or new. What went to another crate under its name is shown there, as moved. By text: whether a changed text says less is the reader's to see."""
import difflib
import html
import re
import sys

from design_texts import closing, texts

SOURCES = r"crates/\w+/(src/.*\.rt|specs/.*\.antt)$"
CLAUSE = re.compile(r"\b(requires|ensures)\b[^{;]*\{")
DEFINITION = re.compile(r"( *)(?:(?:pub|abbrev|unfoldable|opaque|instance) )*(?:(?:record|data) )?(?:(?:pub|abbrev|unfoldable) )*(\S+)(?: [^:=]*)?(?: :( |$)|$)")


def heads(raw):
    """name -> signature and clauses of each public function of a source, of the methods of its types and of its public types with their fields."""
    text = re.sub(r"//[^\n]*", lambda m: " " * len(m.group(0)), raw)
    types = [(m.start(), closing(text, m.end() - 1), [" ".join(re.sub(r"\s+", " ", m.group(2)).split())]) for m in re.finditer(r"^\s*(?:pub )?(impl|trait)\b(?:<[^{>]*>)?([^{;]*)\{", text, re.M)]
    found = {}
    for m in re.finditer(r"^( *)(pub )?(?:(?:const|unsafe|extern \"C\") )*fn (\w+)", text, re.M):
        inside = [name[0] for start, end, name in types if start < m.start() < end]
        if not m.group(2) and not inside:
            continue
        at = text.index("(", m.end())
        at = closing(text, at)
        while at < len(text) and text[at] not in "{;":
            clause = CLAUSE.search(text, at)
            brace = re.compile(r"[{;]").search(text, at).start()
            if not clause or clause.end() - 1 != brace:
                at = brace
                break
            at = closing(text, brace) + 1
        laws = [lay(l.group(0)) for start, end, name in types if start < m.start() < end for l in re.finditer(r"^ *ghost \w+ = \{[^;]*\};", raw[start:end], re.M)]
        found["fn " + "::".join([*inside, m.group(3)])] = "\n".join([*laws, lay(raw[m.start() : at])])
    for m in re.finditer(r"^(?:#\[[^\n]*\]\n)*pub (struct|enum) (\w+)[^{;]*[{;]", text, re.M):
        end = closing(text, m.end() - 1) + 1 if text[m.end() - 1] == "{" else m.end()
        found[m.group(1) + " " + m.group(2)] = lay(raw[m.start() : end])
    for m in re.finditer(r"^pub const (\w+)[^;]*;", text, re.M):
        found["const " + m.group(1)] = lay(m.group(0))
    return found


def lay(text):
    """A text without comments, empty lines and what all its lines are indented by."""
    lines = [l.rstrip() for l in re.sub(r"(//|--)[^\n]*", "", text).split("\n") if re.sub(r"(//|--).*", "", l).strip()]
    least = min((len(l) - len(l.lstrip()) for l in lines), default=0)
    return "\n".join(l[least:] for l in lines)


def definitions(raw):
    """name -> text of each definition of a file of specs/ (one of a section by its own name)."""
    found, name, depth, levels = {}, None, 0, [0]
    lines = raw.split("\n")
    for n, line in enumerate(lines):
        body = line.strip()
        if not body or body.startswith("--"):
            continue
        k = len(line) - len(line.lstrip())
        while levels[-1] > k:
            levels.pop()
        if levels[-1] == k:
            if re.match(r"(use|pub use|mod|pub mod|module|open|infix\w*) ", body):
                name = None
                levels += [k + 2] * body.startswith("module")
                continue
            m = DEFINITION.match(line)
            starts = m and (m.group(3) is not None or "record " in body or "data " in body or lines[n + 1 : n + 2] and lines[n + 1].strip().startswith(":"))
            if starts and not re.match(r"[)}|\]]", body):
                name = m.group(2)
                found.setdefault("def " + name, "")
        if name is not None:
            found["def " + name] += line + "\n"
    return {n: lay(t) for n, t in found.items()}


def items(files):
    """(crate, name) -> text."""
    found = {}
    for path, text in files.items():
        crate = path.split("/")[1]
        for name, said in (heads(text) if path.endswith(".rt") else definitions(text)).items():
            key = (crate, name)
            while key in found:
                key = (crate, key[1] + " (again)")
            found[key] = said
    return found


def words(text):
    return re.sub(r"\s+", " ", text)


def row(name, old, new):
    cell = lambda t: "<td valign=top><pre>%s</pre></td>" % html.escape(t, quote=False)  # noqa: E731
    return "<tr><td colspan=2><b>%s</b></td></tr>\n<tr>%s%s</tr>" % (html.escape(name), cell(old), cell(new))


def main():
    if len(sys.argv) != 2 or sys.argv[1].startswith("-"):
        raise SystemExit(__doc__)
    old, new = items(texts(sys.argv[1], SOURCES)), items(texts(None, SOURCES))
    gone, fresh, rows = {k for k in old if k not in new}, {k for k in new if k not in old}, {}
    for crate, name in sorted(gone):
        there = [k for k in fresh if k[1] == name and difflib.SequenceMatcher(None, words(old[crate, name]), words(new[k])).ratio() > 0.6]
        if len(there) == 1:
            gone.discard((crate, name))
            fresh.discard(there[0])
            rows.setdefault(there[0][0], []).append(row("%s, moved from %s" % (name, crate), old[crate, name], new[there[0]]))
    changed = [k for k in sorted(old) if k in new and words(old[k]) != words(new[k])]
    for crate, name in changed:
        rows.setdefault(crate, []).append(row(name, old[crate, name], new[crate, name]))
    print("%d changed, %d gone, %d new, %d the same.\n" % (len(changed), len(gone), len(fresh), len(set(old) & set(new)) - len(changed)))
    for crate in sorted({k[0] for k in (*old, *new)}):
        left, came = sorted(n for c, n in gone if c == crate), sorted(n for c, n in fresh if c == crate)
        if not (rows.get(crate) or left or came):
            continue
        print("<details><summary>%s: %d changed, %d gone, %d new</summary>\n" % (crate, len(rows.get(crate, ())), len(left), len(came)))
        print("<table>\n<tr><th>old</th><th>new</th></tr>")
        print("\n".join(rows.get(crate, []) + [row(n + " (gone)", old[crate, n], "") for n in left] + [row(n + " (new)", "", new[crate, n]) for n in came]))
        print("</table>\n</details>\n")


main()
