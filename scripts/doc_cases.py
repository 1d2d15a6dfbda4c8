#!/usr/bin/env python3
"""Makes cases of crates/vx_cases from the commands of README.md and docs/*.md, so that the gate runs what the pages show.

    scripts/doc_cases.py [--check]

Each `goosequince` command of a console block (see doc_blocks.py) is a case, and its expected output is what the page shows. The cases are
at the end of crates/vx_cases/stdin, between two lines that begin with `# Commands of the pages`; their expected lines are at the end of
crates/vx_cases/stdout. This script replaces only these. Run it after scripts/make-cases.py too, which writes both files anew.

Input files are those of examples/film, files that earlier commands of the same page make by `> NAME`, and files that lines of its sh blocks
make from those of examples/film by cat, head, tail and printf. Output that goes to a file is kept and not compared, but the output of a
later `show` or `verify` of it is. A command isn't a case if its page leaves lines out (`..`), because the expected output can't come from
the program. The script prints these commands with the reason; scripts/guide.sh runs them too.

With --check nothing is written; the status is 1 if the cases aren't those of the pages.
"""
import argparse
import pathlib
import re
import shutil
import subprocess
import sys
import tempfile

from case_lines import Expected, spelled
from doc_blocks import BadPage, blocks, commands

ROOT = pathlib.Path(__file__).resolve().parent.parent
CASES = ROOT / "crates/vx_cases"
FILM = ROOT / "examples/film"
BEGIN = "# Commands of the pages, by scripts/doc_cases.py"
END = "# Commands of the pages end here"
PLACED = re.compile(r"\d+,\d+=(.*)")
# The lines that the program prints on standard error, with their status.
STATUSES = (
    (re.compile(r"[A-Z]\d*(?: .*)?"), 1),
    (re.compile(r"words not understood|arguments not understood"), 2),
    (re.compile(r"(?:read|write) fault(?: .*)?"), 3),
    (re.compile(r"no memory"), 4),
)
# Commands whose output may look like the line of a broken rule.
ABOUT = ("--explain", "--help", "--version")


# Tools that make input files.
TOOLS = {"cat", "head", "tail", "printf"}


class NoCase(Exception):
    """Says why a command isn't a case."""


def files_of(words):
    """Returns the arguments that name files, in the order of the program's sources."""
    if words[:1] == ["show"] or words[:1] == ["extract"] or words[:2] == ["check", "extract"]:
        return words[-1:]
    first = words[2:3] if words[:2] == ["verify", "merge"] else []
    return first + [placed[1] for word in words if (placed := PLACED.fullmatch(word))]


def expected_of(command):
    """Returns what the page shows as a status, a line on standard error, and output."""
    shown = list(command.shown)
    while shown and not shown[-1]:
        shown.pop()
    if ".." in shown:
        raise NoCase("its page leaves lines out")
    status, err = 0, ""
    if shown:
        forms = STATUSES[1:] if command.words[:1] and command.words[0] in ABOUT else STATUSES
        status = next((number for form, number in forms if form.fullmatch(shown[-1])), 0)
        err = shown.pop() if status else ""
    if command.output and shown:
        raise BadPage(f"{command.place}: its output goes to {command.output}, and is shown too")
    return Expected(status, err, "".join(f"{line}\n" for line in shown).encode())


def made_by(block, files):
    """Returns the files that lines of a shell block make from these with the tools above."""
    with tempfile.TemporaryDirectory() as folder:
        folder = pathlib.Path(folder)
        for path in FILM.glob("*.266"):
            shutil.copy(path, folder / path.name)
        for name, made in files.items():
            (folder / name).write_bytes(made)
        before = {path.name for path in folder.iterdir()}
        for line in block.lines:
            if set(re.findall(r"(?:^|[(;|&])\s*([\w./-]+)", line)) <= TOOLS:
                subprocess.run(["bash", "-e", "-o", "pipefail", "-c", line], cwd=folder, capture_output=True)
        return {path.name: path.read_bytes() for path in folder.iterdir() if path.name not in before}


class Block:
    """The lines of the cases, and their expected output lines."""

    def __init__(self):
        self.given, self.made, self.left, self.named = [], [], [], {}

    def page(self, path):
        """Adds the commands of a page, in the order of its blocks."""
        kept, files, name, begun = set(), {}, path.relative_to(ROOT), False
        for one in blocks(path):
            if one.kind == "sh":
                files.update(made_by(one, files))
            for command in commands(one) if one.kind == "console" else []:
                if command.program != "goosequince":
                    continue
                if not begun:
                    self.given.append(f"# {name}")
                    begun = True
                try:
                    self.command(command, kept, files)
                except NoCase as reason:
                    self.left.append(f"{name}:{command.line}: not a case, {reason}: {command.text}")

    def command(self, command, kept, files):
        """Adds a command of a page. `kept` names are outputs of earlier commands, and the others are files that were made."""
        expected, settings = expected_of(command), []
        for k, file in enumerate(files_of(command.words) if expected.status != 2 else []):
            if file in kept:
                continue
            if file in files or (FILM / file).is_file():
                self.name(file, files.get(file) or (FILM / file).read_bytes())
            elif expected.status == 3:
                settings.append(f"closed {k}")
            else:
                raise NoCase(f"nothing here makes {file}")
        if command.output:
            settings.append(f"keep {command.output}")
            kept.add(command.output)
            self.named.pop(command.output, None)
        self.given += [*settings, f"case {' '.join(command.words)}".strip()]
        self.made.append(expected.line(command.output is not None))

    def name(self, name, stream):
        """Names bytes, unless they have this name already."""
        if self.named.get(name) != stream:
            self.named[name] = stream
            self.given.append(f"stream {name} {spelled(stream)}")


def pages():
    """Returns the pages, in the order in which a reader meets them."""
    first = [ROOT / "README.md", ROOT / "docs/GUIDE.md"]
    return [path for path in [*first, *sorted((ROOT / "docs").glob("*.md"))] if path.exists()]


def block():
    """Returns the block of all pages."""
    made, done = Block(), set()
    for path in pages():
        if path not in done:
            done.add(path)
            made.page(path)
    return made


def stored():
    """Returns the lines of stdin and stdout without the block."""
    given, made = ((CASES / name).read_text().splitlines() for name in ("stdin", "stdout"))
    if BEGIN not in given:
        return given, made
    at = given.index(BEGIN)
    cases = sum(line.startswith("case ") or line == "case" for line in given[at:])
    end = given.index(END, at)
    if any(line.strip() for line in given[end + 1 :]):
        raise BadPage(f"crates/vx_cases/stdin: something stands after the line `{END}`")
    while at and not given[at - 1].strip():
        at -= 1
    return given[:at], made[: len(made) - cases]


def texts(found):
    """Returns the texts that stdin and stdout should have."""
    given, made = stored()
    if found.made:
        given += ["", BEGIN, *found.given, END]
    return "\n".join(given) + "\n", "\n".join([*made, *found.made]) + "\n"


def main():
    """Writes the cases, or compares them."""
    parser = argparse.ArgumentParser(description="Makes cases of crates/vx_cases from the commands of the pages.")
    parser.add_argument("--check", action="store_true", help="only compare; the status is 1 if they differ")
    asked = parser.parse_args()
    try:
        found = block()
        made = texts(found)
    except BadPage as fault:
        sys.exit(str(fault))
    for line in found.left:
        print(line)
    print(f"{len(found.made)} commands are cases, {len(found.left)} aren't")
    for name, text in zip(("stdin", "stdout"), made):
        path = CASES / name
        if path.read_text() != text:
            if asked.check:
                sys.exit(f"crates/vx_cases/{name} isn't what the pages make: run {sys.argv[0]}")
            path.write_text(text)


if __name__ == "__main__":
    main()
