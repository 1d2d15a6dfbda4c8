#!/usr/bin/env python3
r"""Makes crates/vx_explain/src/text.rt, what `--explain` prints of rules and fields, from docs/REFUSALS.md and docs/generated/FIELDS.md.

    scripts/explanations.py [--check]

The two pages are the source. To change a rule, edit its page; to change a field, edit crates/vx_fields and run scripts/list-fields.sh, which
makes the page on fields. Then run this script. With --check nothing is written; the status is 1 if text.rt isn't what the pages make.

The text is a sequence of parts with a bar between two. A part begins with its word and a blank, and is what the program prints, in lines of
at most 78 characters. A rule has its cause and its fix, each on lines of its own, aligned below each other; `Y` has those of all reasons.
A field has its name and sentence, its structure and clause, and, if it has a star, that it isn't compared.

On the page on refusals a rule is an item of a list: its word in bold, its cause, and after a line break its fix, with lists below these.
"""
import argparse
import pathlib
import re
import sys
import textwrap

ROOT = pathlib.Path(__file__).resolve().parent.parent
TEXT = ROOT / "crates/vx_explain/src/text.rt"
WIDTH = 78
# Fields with a star that `merge` compares, as docs/generated/FIELDS.md says above its lists.
MERGED = ("general_profile_idc", "general_tier_flag", "ptl_frame_only_constraint_flag", "ptl_multilayer_enabled_flag")
HEAD = """\
//! What `--explain` prints of rules and fields, as `scripts/explanations.py` makes it of docs/REFUSALS.md and docs/generated/FIELDS.md.

/// The parts, with a bar between two. Each begins with its word and a blank, and is what is printed for this word.
"""


def plain(text):
    """Returns text without Markdown's links, its line breaks, and its marks for bold and italics."""
    text = re.sub(r"\[([^]]*)\]\([^)]*\)", r"\1", text.removesuffix("\\"))
    return re.sub(r"(\*\*?)(\S(?:.*?\S)?)\1", r"\2", text)


def filled(text, first="", later=""):
    """Returns a line of a page as lines of the program, each with its indent."""
    return textwrap.fill(plain(text), WIDTH, initial_indent=first, subsequent_indent=later, break_on_hyphens=False) + "\n"


def entry(item):
    """Returns the text of a rule, an item of the page on refusals without its dash: its word and cause, and everything else below the
    cause.
    """
    word = re.match(r"\*\*(\w+)\*\* ", item).group(1)
    text, *others = item.rstrip().split("\n")
    return filled(text, "", " " * (len(word) + 1)) + under(others, " " * (len(word) + 1))


def reason(item):
    """Returns the text of an item that gives a reason instead of a rule: a line of its words, and everything else below it."""
    words, cause, text = item.rstrip().partition("*Cause:*")
    return filled(words, "  ") + under(f"  {cause}{text}".split("\n"), "    ")


def under(lines, indent):
    """Returns the lines of an item, each a text or an item of a list in it."""
    texts = [line.removeprefix("  ") for line in lines]
    return "".join(filled(text, indent, indent + "  " * text.startswith("- ")) for text in texts)


def rules(page):
    """Returns the parts of the page on refusals: one for each rule, or for each letter whose items have no numbers."""
    for section in page.split("\n## ")[1:]:
        heading, *lines = section.rstrip().split("\n")
        letter, topic, example = re.fullmatch(r"(\w): (.*?) \((`.*`)\)", heading).groups()
        about, *items = re.split(r"^- ", "\n".join(lines), flags=re.M)
        if items[0].startswith(f"**{letter}1** "):
            yield from map(entry, items)
        else:
            text = filled(f"{letter} {topic[0].upper()}{topic[1:]}: {example}.", "", "  ")
            text += "".join(filled(line, "  ", "  ") for line in about.split("\n") if line)
            yield text + "".join(map(reason, items))


def compared(name, star):
    """Returns what is added for a field that isn't compared."""
    if star != "*":
        return ""
    return " Only `merge` compares it, among its sources (M2)." if name in MERGED else " It isn't compared between streams."


def fields(page):
    """Returns the parts of the page on fields, one for each field."""
    for line in page.split("\n"):
        if line.startswith("Fields of "):
            structure = line.removeprefix("Fields of ")
        elif row := re.fullmatch(r"\| (\d+) \| `(\w+)` \| (\*|gap)? ?\| (.*) \|", line):
            number, name, star, sentence = row.groups()
            yield filled(f"{number} {name}: {sentence}") + filled(f"A field of {structure}{compared(name, star)}")


def pages():
    """Returns the texts of the pages on refusals and on fields."""
    return [(ROOT / f"docs/{name}.md").read_text() for name in ("REFUSALS", "generated/FIELDS")]


def main():
    """Writes the text, or compares it."""
    parser = argparse.ArgumentParser(description="Makes the text of crates/vx_explain from docs/REFUSALS.md and docs/generated/FIELDS.md.")
    parser.add_argument("--check", action="store_true", help="only compare; the status is 1 where it differs")
    refusals, numbers = pages()
    parts = [*rules(refusals), *fields(numbers)]
    text = "|".join(parts)
    assert text.isascii() and text.count("|") == len(parts) - 1 and not re.search(r'["\\]', text)
    made = f'{HEAD}pub(crate) static TEXT: [u8; {len(text)}] =\n    *b"{text}";\n'
    if not parser.parse_args().check:
        TEXT.write_text(made)
    elif TEXT.read_text() != made:
        sys.exit(f"{TEXT.relative_to(ROOT)} isn't what the pages make: run {sys.argv[0]}")


if __name__ == "__main__":
    main()
