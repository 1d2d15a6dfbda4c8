#!/usr/bin/env python3
"""Makes crates/vx_fields/src/text.rt, the names of all fields as text, from the constants of crates/vx_fields.

    scripts/field_names.py [--check]

The constants are the source: `pub const NAME: u16 = NUMBER;`. With --check nothing is written, and the status is 1 if text.rt isn't what
would be written. The text is the names in the order of their numbers, one after another. A list says for each number where its name
begins, which is where the name of the number before it ends. A number without a field has an empty name.
"""
import argparse
import pathlib
import re
import sys

FIELDS = pathlib.Path(__file__).resolve().parent.parent / "crates/vx_fields/src"
TEXT = FIELDS / "text.rt"
STRUCTURES = ("vps", "ptl", "dpb", "timing", "sps", "rpl", "weights", "pps", "aps", "ph", "alf", "sh")
WIDTH = 100
HEAD = """\
//! The names of all fields, as `scripts/field_names.py` makes them of the constants.

"""


def names():
    """Returns the name of each number, by number."""
    found = {}
    for structure in STRUCTURES:
        for name, number in re.findall(r"^pub const ([a-z]\w*): u16 = (\d+);", (FIELDS / f"{structure}.rt").read_text(), re.M):
            assert int(number) not in found and name not in found.values(), name
            found[int(number)] = name
    return found


def filled(numbers):
    """Returns numbers in lines, as rt fmt formats them."""
    line, lines = "   ", []
    for number in numbers:
        word = f" {number},"
        if len(line) + len(word) > WIDTH:
            lines.append(line)
            line = "   "
        line += word
    return "\n".join([*lines, line])


def made():
    """Returns the text of the file."""
    named = names()
    places = [0]
    for number in range(max(named) + 1):
        places.append(places[-1] + len(named.get(number, "")))
    text = "\\\n      ".join(named[number] for number in sorted(named))
    return (
        f"{HEAD}/// The names in the order of their numbers, one after another.\n"
        f'pub(crate) static TEXT: [u8; {places[-1]}] = *b"{text}";\n\n'
        "/// Where the name of each number begins, and where the last one ends.\n"
        f"pub(crate) static PLACES: [u16; {len(places)}] = [\n{filled(places)}\n];\n"
    )


def main():
    """Writes the file, or compares it."""
    parser = argparse.ArgumentParser(description="Makes the names of fields as text from the constants of crates/vx_fields.")
    parser.add_argument("--check", action="store_true", help="only compare; the status is 1 where it differs")
    if not parser.parse_args().check:
        TEXT.write_text(made())
    elif TEXT.read_text() != made():
        sys.exit(f"{TEXT} isn't what the constants make: run {sys.argv[0]}")


if __name__ == "__main__":
    main()
