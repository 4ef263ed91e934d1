"""What design_counts.py and design_beside.py share: the texts of a commit or of the work tree, and where a bracket closes."""
import os
import re
import subprocess


def git(*words):
    return subprocess.run(["git", *words], stdout=subprocess.PIPE, check=True).stdout.decode()


def texts(commit, pattern):
    """path -> text of each file whose path fits the pattern; with no commit, of the work tree."""
    wanted = re.compile(pattern)
    if commit is None:
        top = git("rev-parse", "--show-toplevel").strip() + "/"
        names = git("ls-files", "-co", "--exclude-standard", "--full-name", top + "crates").split("\n")
        return {n: open(top + n, encoding="utf-8").read() for n in sorted(set(filter(wanted.match, names))) if os.path.exists(top + n)}
    names = [n for n in git("ls-tree", "-r", "--full-tree", "--name-only", commit).split("\n") if wanted.match(n)]
    return {n: git("show", commit + ":" + n) for n in names}


def closing(text, at):
    """Where the bracket at `at` closes."""
    deep = 0
    for k in range(at, len(text)):
        deep += (text[k] in "([{") - (text[k] in ")]}")
        if deep == 0:
            return k
    return len(text)
