#!/usr/bin/env python3
"""Makes docs/generated/CONTRACTS.md: for each crate its heading, its public types, functions and laws, and the names of their clauses.

    scripts/contracts.py [--check]

The page has the first sentence of each `//!` and `///`, and the names after `ensures`. It lists what other crates can name: what
src/lib.rt declares by `pub mod` or `pub use`, and the public methods of these types. A law is a function of src/laws*.rt. Crates come
after those that they use (crates.txt).

With --check nothing is written, and the status is 1 if the page isn't what would be written.
"""
import argparse
import pathlib
import re
import sys
from dataclasses import dataclass, field

ROOT = pathlib.Path(__file__).resolve().parent.parent
PAGE = ROOT / "docs/generated/CONTRACTS.md"
HEAD = """\
<!-- Made by scripts/contracts.py from the files of crates/: don't edit it. -->

# Contracts, crate by crate

For contributors and reviewers. This page lists what each crate offers: its types, functions and laws, each with the first sentence of its description and the names of its clauses.

A clause `ensures NAME` in `src/` says in full what a function does. A short clause without a name is listed in full, and of a longer one the first definition by which it differs from other clauses. Crates stand after those that they use. [ARCHITECTURE](../ARCHITECTURE.md) shows how the data flows through them.

"""
ITEM = re.compile(
    r'^( *)(?:(pub) )?(?:(?:const|unsafe|extern "C") )*(fn|struct|enum|trait|type) (\w+)|^(impl)\b(?:<[^>]*>)? (.*?) \{|^}'
)
# What opens or closes in a signature, and what ends it; a clause opens with its keyword.
MARK = re.compile(r"\b(requires|ensures)(?: (\w+))?\s+\{|[{(\[\])};]")
# A link with its text: code, or words with an address. Brackets within code are code.
LINK = re.compile(r"\[(`[^`]*`)\](?:\([^)]*\))?|(`[^`]*`)|\[([^\]]*)\]\([^)]*\)")
# A clause without a name that is at most so long stands on the page itself.
SHORT = 120
# Definitions that many clauses use, so that their names say nothing of one of them.
GENERAL = {"AreOfH266", "IfOk", "IsTrue", "List", "MatchOption", "Message", "None", "OnOk", "Place", "Readers", "Reading", "SetUnit", "Some"}


@dataclass
class Offered:
    """A type, function, method or law."""

    name: str
    kind: str
    file: str
    said: str
    clauses: list
    owner: str = ""
    methods: list = field(default_factory=list)


def crates():
    """Returns the crates in the order of crates.txt, each with those that it uses."""
    lines = (line.split("#")[0] for line in (ROOT / "crates.txt").read_text().splitlines())
    split = (line.partition(":") for line in lines if ":" in line)
    return {name.split()[0]: used.split() for name, _, used in split}


def in_order(used):
    """Returns the crates, each after those that it uses."""
    done = []

    def take(crate):
        for below in used.get(crate, ()):
            take(below)
        if crate in used and crate not in done:
            done.append(crate)

    for crate in used:
        take(crate)
    return done


def sentence(text):
    """The first sentence of a description, with its point, and without links."""
    text = LINK.sub(lambda m: m[1] or m[2] or m[3], text)
    first = re.split(r"(?<=[^.]\.)(?: (?=[A-Z`(0-9*\[])|$)", text.strip(), maxsplit=1)[0].strip()
    return first if not first or first.endswith((".", ":")) else f"{first}."


def description(lines, at):
    """Returns the description right above a line."""
    found = []
    while at > 0:
        at -= 1
        line = lines[at].strip()
        if line.startswith("///"):
            found.insert(0, line[3:].strip())
        elif not line.startswith("#["):
            break
    return sentence(first_paragraph(found))


def first_paragraph(lines):
    """Returns the lines up to an empty one, as one line."""
    return " ".join(lines[: lines.index("")] if "" in lines else lines)


def heading(crate):
    """Returns the first sentence of the heading of a crate."""
    for name in ("lib.rt", "main.rt"):
        path = ROOT / "crates" / crate / "src" / name
        if path.exists():
            lines = (line[3:].strip() for line in path.read_text().split("\n") if line.startswith("//!"))
            return sentence(first_paragraph(list(lines)))
    return ""


def clauses(text):
    """The names of the clauses of a function, from its signature on; without a name, the clause or what it uses first."""
    depth = 0
    opened = None
    for m in MARK.finditer(text):
        if not depth and m[0] in "{;":
            return
        if not depth and m[1]:
            opened = m
        depth += 1 if m[0][-1] in "{([" else -1 if m[0] in "})]" else 0
        if not depth and opened and opened[1] == "ensures":
            body = " ".join(text[opened.end() : m.start()].split())
            used = [word for word in re.findall(r"\b[A-Z][a-z]\w*", body) if word not in GENERAL]
            yield opened[2] or (used[0] if used and len(body) > SHORT else body)
        if not depth:
            opened = None


def items(path):
    """Returns the public types, functions and methods of a file, even those that other crates can't name."""
    text = path.read_text()
    lines, owner, trait = text.split("\n"), "", False
    starts = [0]
    for line in lines:
        starts.append(starts[-1] + len(line) + 1)
    for at, line in enumerate(lines):
        m = ITEM.match(line)
        if not m:
            continue
        indent, public, kind, name, impl, of = m.groups()
        if impl:
            owner, trait = ("", False) if " for " in of else (re.match(r"\w+", of)[0], False)
        elif kind is None:
            owner, trait = "", False
        elif kind == "fn" and (public or trait) and len(indent) in (0, 4) and (not indent or owner):
            found = list(dict.fromkeys(clauses(text[starts[at] :])))
            yield Offered(name, "fn", path.stem, description(lines, at), found, owner if indent else "")
        elif kind != "fn" and public and not indent:
            yield Offered(name, kind, path.stem, description(lines, at), [])
            if kind == "trait":
                owner, trait = name, True


def offered(crate):
    """Returns what other crates can name of a crate: its types with their methods, its functions and its laws."""
    src = ROOT / "crates" / crate / "src"
    text = (src / "lib.rt").read_text() if (src / "lib.rt").exists() else ""
    named = {word for use in re.findall(r"^pub use ([^;]*);", text, re.M) for word in re.findall(r"\w+", use.partition("::")[2])}
    open_files = set(re.findall(r"^pub mod (\w+);", text, re.M)) | {"lib"}
    types, functions, laws, methods = {}, [], [], []
    for path in sorted(src.rglob("*.rt")):
        if path.stem == "tests" or path.stem.startswith("tests_"):
            continue
        is_open = path.relative_to(src).parts[0].removesuffix(".rt") in open_files
        for item in items(path):
            if item.owner:
                methods.append(item)
            elif item.name not in named and not is_open and not (crate == "vx_c" and item.name.startswith("gq_")):
                continue
            elif item.kind != "fn":
                types[item.name] = item
            else:
                (laws if path.stem.startswith("laws") else functions).append(item)
    for item in methods:
        if item.owner in types:
            types[item.owner].methods.append(item)
    return list(types.values()), functions, laws


def line_of(item, indent=""):
    """Returns the page's line of an item."""
    name = f"{item.owner}::{item.name}" if item.owner else item.name
    ensures = f" *Ensures* {', '.join(f'`{clause}`' for clause in item.clauses)}." if item.clauses else ""
    return f"{indent}- `{name}`{f': {item.said}' if item.said else ''}{ensures}\n"


def crate_text(crate, used):
    """Returns what the page has of a crate."""
    types, functions, laws = offered(crate)
    own = [f"[`{name}`](#{name})" for name in used if name.startswith("vx_")]
    text = f"## {crate}\n\n{heading(crate)}\n\nUses {', '.join(own)}.\n" if own else f"## {crate}\n\n{heading(crate)}\n"
    if not types and not functions and not laws:
        return text + "\nA program: other crates can't name anything of it.\n"
    if types:
        text += "\nTypes:\n\n" + "".join(line_of(one) + "".join(line_of(method, "  ") for method in one.methods) for one in types)
    for title, found in (("Functions", functions), ("Laws", laws)):
        if found:
            text += f"\n{title}:\n\n" + "".join(map(line_of, found))
    return text


def page():
    """Returns the page."""
    used = crates()
    return HEAD + "\n".join(crate_text(crate, used[crate]) for crate in in_order(used))


def main():
    """Writes the page, or compares it."""
    parser = argparse.ArgumentParser(description="Makes docs/generated/CONTRACTS.md from the crates.")
    parser.add_argument("--check", action="store_true", help="only compare; the status is 1 if it differs")
    made = page()
    if not parser.parse_args().check:
        PAGE.parent.mkdir(parents=True, exist_ok=True)
        PAGE.write_text(made)
    elif not PAGE.exists() or PAGE.read_text() != made:
        sys.exit(f"{PAGE.relative_to(ROOT)} isn't what the crates make: run {sys.argv[0]}")


if __name__ == "__main__":
    main()
