#!/usr/bin/env python3
"""Lists the .rt and .antt files that differ from those of a commit in more than comments and blank lines. The status is 1 if there are any.

    scripts/comments-only.py OLD_COMMIT

The last line is `N files changed, M of them not only in comments`.
"""
import pathlib
import re
import subprocess
import sys

TOP = pathlib.Path(__file__).resolve().parent.parent

# The tokens of a file, so that a comment mark within a string or a char literal is no comment. Names are taken whole, because they may
# end with primes.
RT = re.compile(
    r"""(?P<comment>//[^\n]*)
      | (?P<block>/\*)
      | (?:\b(?:b|c)?r(?P<hashes>\#*)"(?s:.*?)"(?P=hashes))
      | (?:\b[bc])?"(?s:\\.|[^"\\])*"
      | (?:\bb)?'(?:\\(?:u\{[^}]*\}|x..|.)|[^\\'\n])'
      | \w[\w']*
      | (?s:.)""",
    re.X,
)
ANTT = re.compile(
    r"""(?P<comment>--[^\n]*)
      | (?P<block>\{-)
      | "(?s:\\.|[^"\\])*"
      | \w[\w']*
      | (?s:.)""",
    re.X,
)


def without_comments(text, form, ends):
    """Returns the lines of a text without its comments, block comments (which nest) and blank lines."""
    kept, at = [], 0
    while at < len(text):
        found = form.match(text, at)
        at = found.end()
        if found["block"]:
            at, depth = found.end(), 1
            while depth and at < len(text):
                mark = text[at : at + 2]
                depth += (mark == ends[0]) - (mark == ends[1])
                at += 2 if mark in ends else 1
            kept.append(" ")
        elif not found["comment"]:
            kept.append(found[0])
    lines = (line.rstrip() for line in "".join(kept).split("\n"))
    return [line for line in lines if line]


def code(name, text):
    return without_comments(text, RT, ("/*", "*/")) if name.endswith(".rt") else without_comments(text, ANTT, ("{-", "-}"))


def git(*words):
    return subprocess.run(["git", "-C", TOP, *words], check=True, capture_output=True, text=True).stdout


def main():
    if len(sys.argv) != 2:
        print(__doc__, file=sys.stderr)
        return 2
    old = sys.argv[1]
    kinds = ["--", "*.rt", "*.antt"]
    changed = set(git("diff", "--no-renames", "--name-only", old, *kinds).split("\n"))
    changed |= set(git("ls-files", "--others", "--exclude-standard", *kinds).split("\n"))
    changed = sorted(changed - {""})
    known = set(git("ls-tree", "-r", "--name-only", old).split("\n"))
    differ = []
    for name in changed:
        file = TOP / name
        if name not in known or not file.exists():
            differ.append(f"{name}: only in one of both")
            continue
        before, after = code(name, git("show", f"{old}:{name}")), code(name, file.read_text())
        if before != after:
            line = next((a for a, b in zip(after, before) if a != b), "a line at the end")
            differ.append(f"{name}: {line.strip()[:100]}")
    print("\n".join([*differ, f"{len(changed)} files changed, {len(differ)} of them not only in comments"]))
    return bool(differ)


if __name__ == "__main__":
    sys.exit(main())
