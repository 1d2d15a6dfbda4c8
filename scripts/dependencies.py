#!/usr/bin/env python3
"""Compares crates.txt with the libraries that the files of each crate name.

    scripts/dependencies.py

Prints each library that a crate's line of crates.txt lists but no file of the crate names, and each that a file names but the line doesn't
list. A file names a library of the repository or of the kit by a path: `vx_io::Sink` in code, or `Rattle.vx_io.specs.Written` in a clause,
in specs/ or in proofs/. Libraries that only libraries further down use aren't listed; `rt check` finds them by itself.

The status is 1 if anything is printed. The environment variable RT names the command to call in place of rt.
"""
import os
import pathlib
import re
import subprocess

ROOT = pathlib.Path(__file__).resolve().parent.parent
RT = os.environ.get("RT", "rt")
PARTS = ("src", "specs", "proofs")
# Libraries that every crate has without an entry in crates.txt, and those that these use. Walking a proof needs them listed.
ALWAYS = {"std", "core", "alloc", "io", "std_alloc", "std_collections", "std_heap", "std_io"}


def listed():
    """Returns what each line of crates.txt lists, by the crate's name."""
    lines = (line.partition("#")[0] for line in (ROOT / "crates.txt").read_text().splitlines())
    halves = (line.partition(":") for line in lines if ":" in line)
    return {front.split()[0]: set(behind.split()) for front, _, behind in halves}


def libraries_of_kit():
    """Returns the libraries that the kit has."""
    page = subprocess.run([RT, "doc"], capture_output=True, text=True, check=True).stdout.strip()
    return {folder.stem for folder in (pathlib.Path(page).parent / "rlibs").glob("*.rlib")}


def words_of(path):
    """Returns the names that paths of a file begin with, in code and in clauses."""
    comment = r"//[^\n]*" if path.suffix == ".rt" else r"--[^\n]*"
    text = re.sub(comment, "", path.read_text())
    in_code = re.findall(r"\b([a-z]\w*)::", text) if path.suffix == ".rt" else []
    return {*in_code, *re.findall(r"\bRattle\.(\w+)\.", text)}


def named(crate):
    """Returns the names that paths begin with, in all files of a crate."""
    files = [path for part in PARTS for path in (ROOT / "crates" / crate / part).rglob("*")]
    words = [words_of(path) for path in files if path.suffix in (".rt", ".antt")]
    return set().union(*words) - {crate}


def main():
    lines = listed()
    libraries = {*lines, *libraries_of_kit()}
    status = 0
    for crate, deps in lines.items():
        names = named(crate) & libraries
        for dep in sorted(deps - names):
            status = 1
            print(f"{crate}: no file names {dep}")
        for dep in sorted(names - deps - ALWAYS):
            status = 1
            print(f"{crate}: crates.txt doesn't list {dep}, which a file names")
    return status


if __name__ == "__main__":
    raise SystemExit(main())
