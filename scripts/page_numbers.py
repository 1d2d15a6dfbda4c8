"""Fills in the numbers of README.md and docs/*.md that are between marks, so that they aren't typed by hand.

    scripts/numbers.py [--check | --list]

A mark is `<!-- from: NAME -->1,262<!-- / -->`. Marks in code are left as they are. The names:

    believed.PROMISE.WHAT   a number of docs/generated/BELIEVED.md, from scripts/believed.py
    cases.CRATE             the lines of crates/CRATE/stdout
    edits.gate, edits.all   the edits in crates/*/must-fail, and these with those in scripts/twins
    crates                  the crates of the repository
    version                 the version that the program prints
    kit                     what `rt version` prints first; left as it is if there is no `rt`
    measured.FILE.WHAT      the value in the last row of docs/measured/FILE.tsv whose first column is WHAT
    measured.FILE.WHAT.COLUMN   another column of that row

With --check nothing is written, and the status is 1 if a number differs or a name is unknown. --list prints each name and its
value, except measured ones.
"""
import argparse
import functools
import pathlib
import re
import shutil
import subprocess
import sys

ROOT = pathlib.Path(__file__).resolve().parent.parent
MARK = re.compile(r"<!-- from: (.+?) -->(.*?)<!-- / -->")
CODE = re.compile(r"^(`{3,}|~{3,}).*?^\1\s*?$|(?<!`)(`+)(?!`)[^\n]*?(?<!`)\2(?!`)", re.M | re.S)


def pages(root=ROOT):
    """Returns the pages with marks."""
    return [root / "README.md", *sorted((root / "docs").glob("*.md"))]


def shown(value):
    """Returns a value as pages show it."""
    return f"{int(value):,}" if re.fullmatch(r"\d+", str(value)) else str(value)


@functools.cache
def believed_numbers():
    """Returns the numbers of scripts/believed.py, by their names."""
    import believed

    return {f"believed.{name}": value for name, value in believed.numbers().items()}


@functools.cache
def plain_numbers():
    """Returns all other numbers that don't depend on measurements."""
    crates = ROOT / "crates"
    found = {f"cases.{path.parent.name}": path.read_bytes().count(b"\n") for path in crates.glob("*/stdout")}
    found["edits.gate"] = sum(1 for _ in crates.glob("*/must-fail/*.edit"))
    found["edits.all"] = found["edits.gate"] + sum(1 for _ in (ROOT / "scripts/twins").glob("*/*.edit"))
    found["crates"] = sum(path.is_dir() for path in crates.iterdir())
    about = (crates / "vx_run/src/about.rt").read_text()
    found["version"] = re.search(r'"goosequince (\S+?)\\n"', about)[1]
    if shutil.which("rt"):
        found["kit"] = subprocess.run(["rt", "version"], capture_output=True, text=True).stdout.split()[0]
    return found


def measured(name, root=ROOT):
    """Returns the value of `measured.FILE.WHAT` or `measured.FILE.WHAT.COLUMN`; None if there is no such row."""
    _, file, what = name.split(".", 2)
    path = root / f"docs/measured/{file}.tsv"
    if not path.exists():
        return None
    columns, *rows = (line.split("\t") for line in path.read_text().splitlines() if line and not line.startswith("#"))
    last = {row[0]: dict(zip(columns, row)) for row in rows}
    front, _, column = what.rpartition(".")
    return last[what].get("value") if what in last else last.get(front, {}).get(column)


def value_of(name, root=ROOT):
    """Returns the value of a name; None if it is unknown."""
    if name.startswith("measured.") and name.count(".") > 1:
        return measured(name, root)
    return believed_numbers().get(name) if name.startswith("believed.") else plain_numbers().get(name)


def filled(text, root=ROOT):
    """Returns the text with its numbers filled in, and a line for each name that is unknown."""
    unknown = []

    def fill(mark):
        value = value_of(mark[1], root)
        if value is None:
            unknown.append(mark[1])
            return mark[0]
        return f"<!-- from: {mark[1]} -->{shown(value)}<!-- / -->"

    parts, at = [], 0
    for code in CODE.finditer(text):
        parts += [MARK.sub(fill, text[at : code.start()]), code[0]]
        at = code.end()
    parts.append(MARK.sub(fill, text[at:]))
    unknown = [name for name in unknown if name != "kit" or shutil.which("rt")]
    return "".join(parts), unknown


def faults_of(path, root=ROOT):
    """Returns what is wrong in a page, a line each."""
    text = path.read_text()
    made, unknown = filled(text, root)
    old, new = MARK.findall(text), MARK.findall(made)
    faults = [f"{name} is {number or 'empty'}, and should be {right}" for (name, number), (_, right) in zip(old, new) if number != right]
    return faults + [f"no number is named {name}" for name in dict.fromkeys(unknown)]


def main():
    """Fills in the numbers, or compares them."""
    parser = argparse.ArgumentParser(description="Fills in the numbers of the pages that stand between marks.")
    parser.add_argument("--check", action="store_true", help="only compare; the status is 1 where one differs")
    parser.add_argument("--list", action="store_true", help="print the names and their values")
    asked = parser.parse_args()
    if asked.list:
        for name, value in {**plain_numbers(), **believed_numbers()}.items():
            print(f"{name}\t{shown(value)}")
        return
    bad = False
    for path in pages():
        if not asked.check:
            text = path.read_text()
            made, _ = filled(text)
            if made != text:
                path.write_text(made)
        for fault in faults_of(path):
            print(f"{path.relative_to(ROOT)}: {fault}", file=sys.stderr)
            bad = True
    sys.exit(bad)

