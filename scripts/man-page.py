#!/usr/bin/env python3
"""Makes the man page from what `goosequince --help` prints.

    goosequince --help | scripts/man-page.py > goosequince.1

The first line of that text is the program's name and purpose. Lines that begin with two blanks are entries of a list: a tag and its
meaning, which comes after two blanks or in lines that are indented further. Other lines are paragraphs. The first list has the arguments of
each command. A paragraph that begins with `The exit status` is on that, and the one after it is on the rules.

The date is today's, or that of SOURCE_DATE_EPOCH. `mandoc -T lint goosequince.1` reports nothing.
"""
import os
import re
import sys
import textwrap
import time


def escaped(text):
    """Returns text with mdoc's special characters escaped."""
    for plain, mark in (("\\", "\\e"), ("^", "\\(ha"), ("~", "\\(ti")):
        text = text.replace(plain, mark)
    return re.sub(r"^([.'])", r"\\&\1", text)


def prose(text):
    """Returns lines of text, with each sentence on lines of its own."""
    for sentence in re.split(r"(?<=[.:]) (?=[A-Z])", text):
        yield from map(escaped, textwrap.wrap(sentence, 76, break_long_words=False, break_on_hyphens=False))


def macro(word):
    """Returns the macro for an argument of a command."""
    if word.startswith("--"):
        return f"Fl {word[1:]}"
    return f"Cm {word}" if word.islower() else f"Ar {word}"


def words(tag):
    """Returns the arguments of a command, with those that may be left out in brackets."""
    parts = re.findall(r"\[([^]]*)\]|(\S+)", tag)
    return [f"Oo {' '.join(map(macro, option.split()))} Oc" if option else macro(word) for option, word in parts]


def blocks(lines):
    """Returns the blocks: paragraphs, each a text, and lists, each of entries with a tag and a text."""
    for block in "\n".join(lines).split("\n\n"):
        if not block.startswith(" "):
            yield " ".join(block.split())
            continue
        entries = []
        for line in block.splitlines():
            if line[2] != " ":
                tag, _, text = line[2:].partition("  ")
                entries.append([tag, text.strip()])
            else:
                entries[-1][1] = f"{entries[-1][1]} {line.strip()}".strip()
        yield entries


def listed(entries, of_commands):
    """Returns a list."""
    yield ".Bl -tag -width Ds"
    for tag, text in entries:
        yield f".It {' '.join(words(tag))}" if of_commands else f".It {escaped(tag)}"
        yield from prose(text)
    yield ".El"


def page(lines):
    """Returns the page."""
    name, _, purpose = lines[0].partition(": ")
    told = list(blocks(lines[2:]))
    date = time.gmtime(int(os.environ.get("SOURCE_DATE_EPOCH", time.time())))
    yield f".Dd {time.strftime('%B', date)} {date.tm_mday}, {date.tm_year}\n.Dt {name.upper()} 1\n.Os\n.Sh NAME\n.Nm {name}"
    yield f".Nd {purpose}\n.Sh SYNOPSIS"
    for tag, _ in told[0]:
        yield "\n".join([".Nm", *(f".{word}" for word in words(tag))])
    yield ".Sh DESCRIPTION"
    yield from listed(told[0], True)
    for block in told[1:]:
        if isinstance(block, str):
            yield ".Sh EXIT STATUS" if block.startswith("The exit status") else ".Sh DIAGNOSTICS"
            yield from prose(block)
        else:
            yield from listed(block, False)


def main():
    print("\n".join(page(sys.stdin.read().splitlines())))


if __name__ == "__main__":
    main()
