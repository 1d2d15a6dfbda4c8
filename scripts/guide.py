"""Runs the commands of README.md and docs/GUIDE.md: see guide.sh, which is the script to call."""

import os
import re
import shutil
import subprocess
import sys
import tempfile
from pathlib import Path

from doc_blocks import agrees, blocks, commands

ROOT = Path(__file__).resolve().parent.parent
PAGES = ("README.md", "docs/GUIDE.md")
SECONDS = 120


def ffmpeg_suits():
    """Whether there is an ffmpeg of version 7.1 or later."""
    if not shutil.which("ffmpeg"):
        return False
    text = subprocess.run(["ffmpeg", "-version"], capture_output=True, text=True, stdin=subprocess.DEVNULL).stdout
    version = re.match(r"ffmpeg version n?(\d+)\.(\d+)", text)
    return bool(version) and (int(version[1]), int(version[2])) >= (7, 1)


def can_run(reason):
    """Whether a block that isn't run for this reason can be run here: the reason is `needs TOOLS`, and the tools are there."""
    tools = [word.strip(",") for word in reason.split()]
    if tools[:1] != ["needs"]:
        return False
    tools = [tool for tool in tools[1:] if tool != "and" and not tool[0].isdigit()]
    return all(ffmpeg_suits() if tool == "ffmpeg" else shutil.which(tool) for tool in tools)


class Run:
    """A run of a page in a folder of its own."""

    def __init__(self, page, folder, program):
        self.page, self.passed, self.failed, self.skipped = page, 0, 0, 0
        self.bin, self.root = folder / "bin", folder / "work"
        self.bin.mkdir()
        self.root.mkdir()
        (self.bin / "goosequince").symlink_to(program)
        self.program, self.at = program, self.root
        self.missing = set()  # what skipped blocks would have made
        shutil.copytree(ROOT / "examples/film", self.root / "examples/film")

    def whole(self):
        """Runs the blocks of the page in order."""
        found = blocks(ROOT / self.page)
        for block, after in zip(found, found[1:] + [None]):
            if block.kind == "console":
                for command in commands(block):
                    self.command(command)
            elif block.reason is not None:
                self.shell(block, after if after and after.kind == "text" else None)

    def command(self, command):
        """Runs a command, and compares what it prints."""
        if command.program == "cd":
            self.at = self.root / command.words[0]
            if not self.at.is_dir():
                self.fails(command.place, f"no folder {command.words[0]}", "")
            return
        if any(word.partition("=")[2] in self.missing or word in self.missing for word in command.words):
            self.skipped += 1
            self.missing |= {command.output} - {None}
            return
        done = subprocess.run(
            [self.program, *command.words], cwd=self.at, stdin=subprocess.DEVNULL, capture_output=True, timeout=SECONDS
        )
        out = done.stdout
        if command.output:
            (self.at / command.output).write_bytes(out)
            out = b""
        lines = (out + done.stderr).decode(errors="replace").splitlines()
        self.tells(command.place, command.text, agrees(command.shown, lines), lines)

    def shell(self, block, text):
        """Runs a block of a shell if its tools are there, and compares what it prints with the block after it."""
        if not can_run(block.reason):
            self.skipped += 1
            self.missing |= set(re.findall(r"> *([\w.]+)", block.text)) | set(re.findall(r"(\w+\.\w+)$", block.text, re.M))
            return
        environment = {**os.environ, "PATH": f"{self.bin}:{os.environ['PATH']}"}
        done = subprocess.run(
            ["bash", "-euo", "pipefail", "-c", block.text], cwd=self.at, env=environment, stdin=subprocess.DEVNULL, capture_output=True, timeout=SECONDS
        )
        lines = done.stdout.decode(errors="replace").splitlines()
        good = done.returncode == 0 and (text is None or agrees(text.lines, lines))
        self.tells(f"{block.page}:{block.line}", block.lines[0], good, lines + done.stderr.decode(errors="replace").splitlines())

    def tells(self, place, text, good, lines):
        """Counts a command."""
        if good:
            self.passed += 1
        else:
            self.fails(place, text, "".join(f"    {line}\n" for line in lines[:20]))

    def fails(self, place, text, printed):
        self.failed += 1
        print(f"{place}: {text}\n  printed, unlike its page:\n{printed}", end="")


def main():
    program, *pages = sys.argv[1:]
    sums = [0, 0, 0]
    for page in pages or PAGES:
        with tempfile.TemporaryDirectory() as folder:
            run = Run(page, Path(folder), program)
            run.whole()
        counts = run.passed, run.failed, run.skipped
        print("{}: {} passed, {} failed, {} skipped".format(page, *counts))
        sums = [a + b for a, b in zip(sums, counts)]
    print("{} passed, {} failed, {} skipped".format(*sums))
    sys.exit(1 if sums[1] else 0)


if __name__ == "__main__":
    main()
