#!/usr/bin/env python3
"""Lists the must-fail edits and twins that don't apply: the `old:` text of an edit has to occur exactly once in its file.

    scripts/edits-apply.py

The last line is `N passed, M failed`, and the status is 1 if any failed.
"""
import sys

from edit_files import ROOT, changed_texts, crate_of, gate_edits, script_edits, twins


def fault(edit):
    """Returns why an edit doesn't apply, or None."""
    try:
        changed_texts(edit, ROOT / "crates" / crate_of(edit))
    except (OSError, ValueError) as error:
        return f"{edit.relative_to(ROOT)}: {error}"
    return None


def main():
    edits = [*gate_edits(), *script_edits(), *twins()]
    faults = list(filter(None, map(fault, edits)))
    print("\n".join([*faults, f"{len(edits) - len(faults)} passed, {len(faults)} failed"]))
    return bool(faults)


if __name__ == "__main__":
    sys.exit(main())
