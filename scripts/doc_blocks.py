#!/usr/bin/env python3
"""The fenced blocks of a page, and the commands of its console blocks.

Usage: scripts/doc_blocks.py PAGE..    (prints each command with the place of its line and the number of lines shown)

Commands stand on pages in blocks of three kinds:

    console          lines that begin with `$ ` are commands. The lines after a command are what the terminal shows, of both
                     streams; `..` on a line of its own stands for any number of lines that are left out.
    c                has to compile.
    sh not-run: WHY  needs what a test hasn't.

A command of a console block is `goosequince WORDS` or `../../scripts/try.sh WORDS`, which mean the same, with `> NAME` or without it,
or `cd FOLDER`.
"""

import sys
from dataclasses import dataclass, field
from pathlib import Path

PROGRAMS = ("goosequince", "scripts/try.sh", "../../scripts/try.sh")
# What only a shell understands. No word of a command has any of these.
SHELL = set("|&;<>()$`\\\"'*?[]#~{}")


class BadPage(Exception):
    """A page whose blocks aren't of a form that is known."""


@dataclass
class Block:
    """A fenced block."""

    page: str
    line: int  # of the opening fence, from 1
    info: str  # what stands after the opening fence, as "sh not-run: needs ffmpeg"
    lines: list = field(default_factory=list)

    @property
    def kind(self):
        """The first word after the fence: console, c, sh, json .. or nothing."""
        return self.info.split()[0] if self.info else ""

    @property
    def reason(self):
        """Why the block isn't run, or None."""
        _, mark, reason = self.info.partition("not-run:")
        return reason.strip() if mark else None

    @property
    def text(self):
        return "".join(line + "\n" for line in self.lines)


@dataclass
class Command:
    """A command of a console block."""

    page: str
    line: int  # from 1
    text: str  # as it stands after `$ `
    program: str  # "goosequince" or "cd"
    words: list  # the arguments, without program and `> NAME`
    output: str  # NAME of `> NAME`, or None
    shown: list = field(default_factory=list)  # the lines after it, with `..` as it stands

    @property
    def place(self):
        return f"{self.page}:{self.line}"


def blocks(page):
    """Returns the fenced blocks of a page, in order. `page` is a path."""
    found, block, fence = [], None, ""
    for number, line in enumerate(Path(page).read_text(encoding="utf-8").splitlines(), 1):
        bare = line.lstrip(" ")
        if block is None:
            mark = bare[: len(bare) - len(bare.lstrip("`"))]
            if len(mark) >= 3 and "`" not in bare[len(mark) :]:
                fence = mark
                block = Block(str(page), number, bare[len(mark) :].strip())
        elif bare.startswith(fence) and not bare.strip("` "):
            found.append(block)
            block = None
        else:
            block.lines.append(line)
    if block is not None:
        raise BadPage(f"{page}:{block.line}: the block has no end")
    return found


def command(page, number, text):
    """Reads the text of a command, which stands after `$ `."""
    words, output = text.split(), None
    if len(words) >= 2 and words[-2] == ">":
        words, output = words[:-2], words[-1]
    if not words or SHELL.intersection("".join(words) + (output or "")):
        raise BadPage(f"{page}:{number}: no form of command that is known: {text}")
    if words[0] == "cd" and len(words) == 2 and output is None:
        return Command(str(page), number, text, "cd", words[1:], None)
    if words[0] in PROGRAMS:
        return Command(str(page), number, text, "goosequince", words[1:], output)
    raise BadPage(f"{page}:{number}: no command that is known: {text}")


def commands(block):
    """Returns the commands of a console block, each with the lines that are shown after it."""
    found = []
    for number, line in enumerate(block.lines, block.line + 1):
        if line.startswith("$ "):
            found.append(command(block.page, number, line[2:]))
        elif found:
            found[-1].shown.append(line)
        else:
            raise BadPage(f"{block.page}:{number}: a line before the first command")
    return found


def page_commands(page):
    """Returns the commands of all console blocks of a page, in order."""
    return [c for block in blocks(page) if block.kind == "console" for c in commands(block)]


def agrees(shown, lines):
    """Whether `lines`, what a command printed, is what the page shows: `..` stands for any number of lines, also none."""
    if not shown:
        return not lines
    if shown[0] == "..":
        return any(agrees(shown[1:], lines[k:]) for k in range(len(lines) + 1))
    return bool(lines) and shown[0] == lines[0] and agrees(shown[1:], lines[1:])


def main():
    for page in sys.argv[1:]:
        for c in page_commands(page):
            print(f"{c.place}: {c.program} {' '.join(c.words)}{f' > {c.output}' if c.output else ''} ({len(c.shown)} lines shown)")


if __name__ == "__main__":
    main()
