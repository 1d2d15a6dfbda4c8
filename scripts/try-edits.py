#!/usr/bin/env python3
"""Tries must-fail edits, each beside its twin, the same change with the right value.

    scripts/try-edits.py [--jobs N] [--record] [CRATE | CRATE/NAME] ..
    scripts/try-edits.py --page [--check]

Without names it tries all: those of the merge gate and those that only this script tries (scripts/edit_files.py says where they
stand). Each is applied to a copy of the repository, which is checked. An edit passes if the prover refuses it, with evidence that its
meaning is what was refused: the prover prints values at which the goal is false; or the twin is proved; or there is no twin, and the goal
has no written answer that could miss its old text. The last line is `N passed, M failed`.

--record writes what came of each into docs/measured/edits.tsv, with the commit, the kit and the date. --page makes
docs/generated/EDITS.md of that file; with --check it only compares.

RT is the command to call in place of rt.
"""
import argparse
import collections
import csv
import datetime
import os
import pathlib
import re
import shutil
import subprocess
import sys
import tempfile
from concurrent.futures import ThreadPoolExecutor

from edit_files import ROOT, changed_texts, crate_of, gate_edits, script_edits, twin_of

RT = os.environ.get("RT", "rt")
PARTS = ("src", "specs", "proofs")
RECORD = ROOT / "docs" / "measured" / "edits.tsv"
PAGE = ROOT / "docs" / "generated" / "EDITS.md"
COLUMNS = ("crate", "edit", "outcome", "goal", "twin", "commit", "kit", "date")


# ---- the copy of a repository

def dependencies():
    """The crates of the repository that each crate names, and its line of crates.txt."""
    lines = (line.split("#")[0] for line in (ROOT / "crates.txt").read_text().splitlines())
    named = {line.split(":")[0].split()[0]: line for line in lines if ":" in line}
    return {name: [dep for dep in line.split(":")[1].split() if dep in named] for name, line in named.items()}, named


def below(crate, deps):
    """The crate and all that it stands on."""
    return {crate}.union(*(below(dep, deps) for dep in deps[crate]))


def copy_of(crate, room):
    """Makes a repository of the crate and those below it, and returns the crate's folder."""
    deps, lines = dependencies()
    names = below(crate, deps)
    for name in names:
        for part in PARTS:
            if (ROOT / "crates" / name / part).is_dir():
                shutil.copytree(ROOT / "crates" / name / part, room / "crates" / name / part)
    (room / "crates.txt").write_text("".join(f"{lines[name]}\n" for name in names))
    shutil.copy(ROOT / "HANDLES", room / "HANDLES")
    return room / "crates" / crate


# ---- one try

def check(folder):
    """Whether the crate is proved, and what the check printed."""
    said = subprocess.run([RT, "check"], cwd=folder, capture_output=True, text=True, errors="replace").stdout
    return "\nlogic=proved" in said, said


def goals_of(said):
    """The goals that are not proved: whether the prover has values at which one is false, its answer is open or written, and its name."""
    goals = [("open", *found) for found in re.findall(r"it is not proved that .*?\(`([\w-]+)`\)(.*)", said)]
    goals += [("written", *found) for found in re.findall(r"Answers\.antt:\S+ error: `([\w-]+)`: (.*)", said)]
    values = r"at which this goal is false|and the goal fails, at|differ only where one has `[\w.]*(true|false)`"
    return [("false" if re.search(values, rest) else kind, goal) for kind, goal, rest in goals]


def outcome_of(is_proved, said):
    """What a check of a changed crate means, and its first goal or error.

    The changed crate is proved; it can't be read (`bad`); or it is refused, at a goal that is false for printed values (`false`), at a goal
    without a written answer (`open`), or at one with a written answer (`written`).
    """
    if is_proved:
        return "proved", ""
    goals = goals_of(said)
    if not goals or "error[" in said:
        errors = [line for line in said.splitlines() if re.search(r": error|error\[|limit", line)]
        return "bad", (errors or said.strip().splitlines()[-3:] or ["no output"])[0][:200]
    return next((goal for goal in goals if goal[0] == "false"), goals[0])


def tried(edit, folder):
    """What a check with an edit means, and its first goal or error."""
    try:
        texts = changed_texts(edit, folder)
    except (OSError, ValueError) as error:
        return "bad", str(error)
    before = {path: path.read_text() for path in texts}
    try:
        for path, text in texts.items():
            path.write_text(text)
        return outcome_of(*check(folder))
    finally:
        for path, text in before.items():
            path.write_text(text)


Try = collections.namedtuple("Try", "crate edit outcome goal twin")


def has_passed(it):
    """Whether an edit is refused with evidence."""
    return it.outcome == "false" or (it.outcome in ("open", "written") and it.twin == "proved") or (it.outcome == "open" and it.twin == "none")


def try_edit(edit, folder):
    """Tries an edit and its twin, and prints a line."""
    outcome, goal = tried(edit, folder)
    twin = twin_of(edit)
    it = Try(crate_of(edit), edit.stem, outcome, goal, tried(twin, folder)[0] if twin.is_file() else "none")
    print(f"{it.crate}/{it.edit}: {'passed' if has_passed(it) else 'FAILED'}: edit {it.outcome}, twin {it.twin} ({it.goal})", flush=True)
    return it


def try_crate(crate, names):
    """Tries the edits of a crate: all, or those of these names."""
    edits = [edit for edit in [*gate_edits(crate), *script_edits(crate)] if not names or edit.stem in names]
    with tempfile.TemporaryDirectory(prefix=f"try-edits-{crate}-") as room:
        folder = copy_of(crate, pathlib.Path(room))
        is_proved, said = check(folder) if edits else (True, "")
        if not is_proved:
            print(f"{crate}: not proved without an edit:\n{said[-600:]}", flush=True)
            return [Try(crate, edit.stem, "bad", "the crate is not proved without it", "none") for edit in edits]
        return [try_edit(edit, folder) for edit in sorted(edits, key=lambda it: it.name)]


# ---- the record and the page

def rows():
    """The rows of the record, by crate and edit."""
    if not RECORD.exists():
        return {}
    with RECORD.open() as file:
        return {(row["crate"], row["edit"]): row for row in csv.DictReader(file, delimiter="\t")}


def output_of(*words):
    """What a command prints, in one line."""
    return subprocess.run(words, cwd=ROOT, capture_output=True, text=True).stdout.strip()


def record(tries):
    """Writes what came of edits over what the record has of them, and leaves out edits that are gone."""
    common = {"commit": output_of("git", "rev-parse", "--short=8", "HEAD"), "kit": output_of(RT, "version").split()[0], "date": datetime.date.today().isoformat()}
    known = rows()
    known.update({(it.crate, it.edit): {**it._asdict(), **common} for it in tries})
    there = {(crate_of(edit), edit.stem) for edit in [*gate_edits(), *script_edits()]}
    with RECORD.open("w", newline="") as file:
        out = csv.DictWriter(file, COLUMNS, delimiter="\t", lineterminator="\n")
        out.writeheader()
        out.writerows(known[key] for key in sorted(known) if key in there)


WORDS = {
    "false": "refused, with values",
    "open": "refused",
    "written": "refused",
    "proved": "PROVED",
    "bad": "not applied",
}


def page():
    """The page on edits."""
    known, in_gate = rows(), {(crate_of(edit), edit.stem) for edit in gate_edits()}
    every = sorted({*in_gate, *((crate_of(edit), edit.stem) for edit in script_edits())})
    yield "<!-- Made by scripts/try-edits.py --page. -->"
    yield "# Must-fail edits"
    yield ""
    yield "For verification engineers. Each edit is a wrong body that the prover has to refuse. Its twin is the same change with the right value, and has"
    yield "to be proved. *With values*: the prover prints values at which the goal is false. *In the gate*: `rt ci` tries the edit in every run."
    yield ""
    yield f"{len(every)} edits, {len(in_gate)} of them in the gate. `scripts/try-edits.py CRATE/NAME` tries one."
    yield ""
    yield "| crate | edit | in the gate | edit | goal | twin | tried on | commit |"
    yield "|---|---|---|---|---|---|---|---|"
    for key in every:
        row = known.get(key, dict.fromkeys(COLUMNS, ""))
        goal = f"`{row['goal']}`" if re.fullmatch(r"[\w-]+", row["goal"]) else ""
        cells = [*key, "yes" if key in in_gate else "", WORDS.get(row["outcome"], "not tried"), goal, row["twin"], row["date"], row["commit"]]
        yield f"| {' | '.join(cells)} |"


def write_page(only_compare):
    """Makes the page, or compares it."""
    text = "\n".join(page()) + "\n"
    if only_compare:
        return 0 if PAGE.exists() and PAGE.read_text() == text else f"{PAGE.relative_to(ROOT)} is not up to date: run scripts/try-edits.py --page"
    PAGE.parent.mkdir(exist_ok=True)
    PAGE.write_text(text)
    return 0


def main():
    parser = argparse.ArgumentParser(description=__doc__, formatter_class=argparse.RawDescriptionHelpFormatter)
    parser.add_argument("--jobs", type=int, default=2, help="crates that are tried at once")
    parser.add_argument("--record", action="store_true", help="write docs/measured/edits.tsv")
    parser.add_argument("--page", action="store_true", help="make docs/generated/EDITS.md")
    parser.add_argument("--check", action="store_true", help="with --page: only compare")
    parser.add_argument("what", nargs="*", help="a crate, or one edit of it")
    words = parser.parse_args()
    if words.page:
        return write_page(words.check)
    wanted = {}
    for word in words.what or sorted({crate_of(edit) for edit in [*gate_edits(), *script_edits()]}):
        crate, _, name = word.partition("/")
        wanted.setdefault(crate, []).extend([name] if name else [])
    with ThreadPoolExecutor(words.jobs) as pool:
        tries = [it for of_crate in pool.map(lambda item: try_crate(*item), wanted.items()) for it in of_crate]
    if words.record:
        record(tries)
    passed = sum(map(has_passed, tries))
    print(f"{passed} passed, {len(tries) - passed} failed")
    return int(passed < len(tries) or not tries)


if __name__ == "__main__":
    sys.exit(main())
