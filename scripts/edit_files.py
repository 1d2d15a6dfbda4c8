"""Must-fail edits and their twins as files: where they stand, and the texts that they make. Read by other scripts.

An edit is a wrong body: the check of its crate has to refuse it. Those of the merge gate stand in crates/CRATE/must-fail/NAME.edit, all
others in scripts/twins/CRATE/NAME.edit. The twin of either is scripts/twins/CRATE/NAME.twin: the same change with the right value, which
has to be proved. Both have lines `file: PATH` (in the crate), `old: TEXT` and `new: TEXT`, each on one line. TEXT after `old:` stands
exactly once in the file, after the changes before it.
"""
import pathlib

ROOT = pathlib.Path(__file__).resolve().parent.parent
TWINS = ROOT / "scripts" / "twins"


def gate_edits(crate="*"):
    """The edits of the merge gate, of one crate or of all."""
    return sorted(ROOT.glob(f"crates/{crate}/must-fail/*.edit"))


def script_edits(crate="*"):
    """The edits that only scripts/try-edits.py tries, of one crate or of all."""
    return sorted(TWINS.glob(f"{crate}/*.edit"))


def twins():
    """All twins."""
    return sorted(TWINS.glob("*/*.twin"))


def crate_of(edit):
    """The crate that an edit or a twin changes."""
    return edit.parent.name if edit.is_relative_to(TWINS) else edit.parent.parent.name


def twin_of(edit):
    """The path of an edit's twin, which need not be there."""
    return TWINS / crate_of(edit) / f"{edit.stem}.twin"


def changed_texts(edit, folder):
    """Returns the texts of the files that an edit changes, by their paths in a crate's folder. Raises ValueError if it doesn't apply."""
    path, old, texts = None, None, {}
    for line in edit.read_text().splitlines():
        if line.startswith("file: "):
            path = folder / line.removeprefix("file: ").strip()
        elif line.startswith("old: "):
            old = line.removeprefix("old: ")
        elif line.startswith("new:"):
            text = texts.get(path) or path.read_text()
            if text.count(old) != 1:
                raise ValueError(f"{path.relative_to(folder)} has it {text.count(old)} times: {old[:100]}")
            texts[path] = text.replace(old, line.removeprefix("new:").removeprefix(" "))
    return texts
