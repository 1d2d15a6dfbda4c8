#!/usr/bin/env python3
"""Makes docs/generated/COSTS.md from docs/measured/gate.tsv and run.tsv, which scripts/gate-costs.py writes.

    scripts/costs-page.py [--check]

With --check nothing is written, and the status is 1 if the page is not what it would be.
"""
import pathlib
import sys

ROOT = pathlib.Path(__file__).resolve().parent.parent
PAGE = ROOT / "docs/generated/COSTS.md"
PARTS = ("proof", "tests", "edits", "builds")
WHATS = {"wall": "the whole run", "processor": "all processors", "memory": "most memory of all checks together"}


def rows(name):
    """Returns the rows of a file of docs/measured by their first column."""
    path = ROOT / f"docs/measured/{name}.tsv"
    if not path.exists():
        return {}
    columns, *lines = (line.split("\t") for line in path.read_text().splitlines())
    return {line[0]: dict(zip(columns, line)) for line in lines}


def dependencies():
    """Returns the crates of the repository that each crate names."""
    lines = (line.partition("#")[0].strip() for line in (ROOT / "crates.txt").read_text().splitlines())
    named = {line.partition(":")[0].split()[0]: line.partition(":")[2].split() for line in lines if ":" in line}
    return {name: [dep for dep in deps if dep in named] for name, deps in named.items()}


def seconds(row, part):
    """Returns the seconds of a part; 0 if they aren't known."""
    return int(row[part]) if row and row[part].isdigit() else 0


def longest_chain(deps, gate):
    """Returns the chain of crates, each below the next one, whose proofs take longest one after another, and their seconds."""
    found = {}

    def chain(crate):
        if crate not in found:
            before = max(map(chain, deps[crate]), key=lambda it: it[1], default=([], 0))
            found[crate] = [*before[0], crate], before[1] + seconds(gate.get(crate), "proof")
        return found[crate]

    return max(map(chain, deps), key=lambda it: it[1])


def said(text):
    """Returns a number as pages show it; an empty text if it isn't known."""
    return f"{int(text):,}" if str(text).isdigit() else ""


def lines():
    gate, run, deps = rows("gate"), rows("run"), dependencies()
    gate = {crate: gate[crate] for crate in deps if crate in gate}
    yield "<!-- Made by scripts/costs-page.py from docs/measured. Don't edit it. -->"
    yield "# What the gate costs"
    yield ""
    yield "For contributors: the processor seconds that `rt ci` takes from nothing, by crate, and the memory of its largest check."
    yield "`scripts/gate-costs.py` records them. An empty cell is a figure that isn't known."
    yield ""
    measured = {tuple(row[it] for it in ("commit", "kit", "processors", "date", "load")) for row in gate.values()}
    for commit, kit, processors, date, load in sorted(measured):
        of = "" if len(measured) == 1 else f" ({sum(row['commit'] == commit and row['date'] == date for row in gate.values())} crates)"
        yield f"Measured{of}: commit {commit}, {kit}, {processors} processors, {date}, {load}."
    if any(row["load"] == "busy" for row in gate.values()):
        yield "On a busy machine the same work takes up to twice as long."
    yield ""
    if run:
        yield "| of a whole run | value | commit | kit | machine | date | load |"
        yield "|---|--:|---|---|---|---|---|"
        for name, text in WHATS.items():
            if name in run:
                row = run[name]
                yield f"| {text} | {row['value']} {row['unit']} | {row['commit']} | {row['kit']} | {row['machine']} | {row['date']} | {row['load']} |"
        yield ""
    else:
        yield "A whole run from nothing isn't recorded yet."
        yield ""
    yield "| crate | proof, s | tests, s | edits, s | builds, s | memory, MB |"
    yield "|---|--:|--:|--:|--:|--:|"
    for crate, row in sorted(gate.items(), key=lambda it: -sum(seconds(it[1], part) for part in PARTS)):
        yield f"| `{crate}` | " + " | ".join(said(row[it]) for it in (*PARTS, "memory")) + " |"
    sums = {part: sum(seconds(row, part) for row in gate.values()) for part in PARTS}
    yield "| sum of these, processor minutes | " + " | ".join(f"{sums[part] / 60:.0f}" if sums[part] else "" for part in PARTS) + " | |"
    yield ""
    crates, length = longest_chain(deps, gate)
    yield f"Crates that use one another are proved one after another. The longest such chain takes {length:,} s by these figures: {', '.join(f'`{it}`' for it in crates)}."
    yield "With one job for each check, the proofs take at least this long, however many processors there are."
    if any(not seconds(row, "proof") for row in gate.values()):
        yield "A proof without a figure counts as nothing in the sums and in the chain."


def main():
    made = "\n".join([*lines(), ""])
    if "--check" in sys.argv[1:]:
        if not PAGE.exists() or PAGE.read_text() != made:
            print("docs/generated/COSTS.md is not what scripts/costs-page.py makes", file=sys.stderr)
            return 1
        return 0
    PAGE.parent.mkdir(exist_ok=True)
    PAGE.write_text(made)
    return 0


if __name__ == "__main__":
    raise SystemExit(main())
