#!/usr/bin/env python3
"""Cuts the stored input of a test program into pieces that run alone, and compares their output with the stored one.

    quick_pieces.py cut CRATE FOLDER .. [--words WORD ..]      writes the pieces to the folders, in turn, a file for each
    quick_pieces.py compare CRATE FILE .. [--words WORD ..]    counts right results in the files, in which a line `== NAME` begins each piece

The names of the files sort so that the first few pieces have some of each part of the input. With --words only the cases are taken that
have one of these words, whatever its case: in the comment above them, in their command and the names of their files, or in the status
and the line that they have to report.

Input and expected output are crates/CRATE/stdin and stdout. In vx_cases each line `case`, `pushed` or `generated` has one line of output.
In vx_calls each line has one, except empty lines and comments. In vx_vectors the output for a stream and for the lines about it begins with
its line `stream`. A piece of vx_cases begins with the streams that it names and the cases whose output it names.

`compare` prints `N passed, M failed, K not tried`, and each wrong result on standard error. Its status is 1 if none was tried.
"""
import pathlib
import re
import sys

ROOT = pathlib.Path(__file__).resolve().parent.parent
# The bytes of input and output of a piece, without its streams. A larger item is a piece of its own.
SIZE = 6_000
# Of every STRIDE pieces one is tried before its neighbours.
STRIDE = 12
# The first bytes of an expected line of vx_cases that have its status and its line.
HEAD = 300


class Item:
    """Lines that belong together, their expected output, the names that they define and use, and the text in which words are looked
    for.
    """

    def __init__(self, lines, answers, gives=(), uses=(), text=""):
        self.lines, self.answers, self.gives, self.uses, self.text = lines, answers, gives, uses, text

    def size(self):
        return sum(map(len, self.lines)) + sum(map(len, self.answers))

    def has(self, words):
        """Returns whether the item has one of the words, or there are none to look for."""
        return not words or any(re.search(rf"(?<![a-z0-9]){re.escape(it.lower())}(?![a-z0-9])", self.text.lower()) for it in words)


def case_items(given, answers):
    """Returns the cases of vx_cases, each with the lines that apply to it alone, and its streams."""
    held, kept, comment = [], [], ""
    for line in given:
        word, _, rest = line.partition(" ")
        if word == "stream":
            yield Item([line], [], gives=[rest.split()[0]])
        elif word == "generated":
            answer = next(answers)
            yield Item([line], [answer], text=f"{comment} {line}")
        elif word in ("case", "pushed"):
            uses = [word[at:] for word in rest.split() for at in (0, *(k + 1 for k, it in enumerate(word) if it == "="))]
            answer = next(answers)
            text = f"{comment} {line} {answer[:HEAD].partition(' out=')[0].replace('_', ' ')}"
            yield Item([*held, line], [answer], gives=kept, uses=uses, text=text)
            held, kept = [], []
        elif word == "#":
            comment = rest
        elif word:
            held.append(line)
            kept += [rest] if word == "keep" else []


def call_items(given, answers):
    """Returns the calls of vx_calls."""
    comment = ""
    for line in given:
        if line.startswith("#"):
            comment = line
        elif line:
            yield Item([line], [next(answers)], text=f"{comment} {line}")


def vector_items(given, answers):
    """Returns the lines of vx_vectors before its first stream, and each stream with the lines about it."""
    first = next((k for k, line in enumerate(given) if line.startswith("stream ")), len(given))
    for line in given[:first]:
        yield Item([line], [next(answers)], text=line)
    begins = [k for k, line in enumerate(given) if line.startswith("stream ")]
    told = list(answers)
    told_begins = [k for k, line in enumerate(told) if line.startswith("stream ")]
    ends, told_ends = [*begins[1:], len(given)], [*told_begins[1:], len(told)]
    for begin, end, told_begin, told_end in zip(begins, ends, told_begins, told_ends, strict=True):
        yield Item(given[begin:end], told[told_begin:told_end], text=" ".join(given[begin:end]))


ITEMS = {"vx_cases": case_items, "vx_calls": call_items, "vx_vectors": vector_items}


def items_of(crate):
    folder = ROOT / "crates" / crate
    given = (folder / "stdin").read_text().splitlines()
    return list(ITEMS[crate](given, iter((folder / "stdout").read_text().splitlines())))


def needed(item, makers):
    """Returns the items that define the names that an item uses, and the items that these need, in order."""
    found = []
    for name in item.uses:
        if name in makers:
            maker, before = makers[name]
            found += [it for it in (*needed(maker, before), maker) if it not in found]
    return found


def pieces_of(crate, words):
    """Returns the pieces: each is a list of items, with a flag for each: it counts, or it only defines names for later ones."""
    makers, pieces, piece, latest, size = {}, [], [], {}, 0
    for item in items_of(crate):
        if item.answers and item.has(words):
            if piece and size + item.size() > SIZE:
                pieces.append(piece)
                piece, latest, size = [], {}, 0
            lacking = [it for it in needed(item, makers) if any(latest.get(name) is not it for name in it.gives)]
            for it, counts in (*((it, False) for it in lacking), (item, True)):
                piece.append((it, counts))
                latest.update((name, it) for name in it.gives)
            size += item.size()
        for name in item.gives:
            makers = {**makers, name: (item, makers)}
    return [*pieces, piece] if piece else pieces


def cut(crate, folders, words):
    """Deals the pieces out to the folders."""
    pieces = pieces_of(crate, words)
    ranks = sorted(range(len(pieces)), key=lambda k: (k % STRIDE, k))
    for rank, k in enumerate(ranks):
        file = folders[rank % len(folders)] / f"{rank:04}-{k:04}"
        file.write_text("".join(f"{line}\n" for item, _ in pieces[k] for line in item.lines))


def written(files):
    """Returns the output of each piece, by its number, in the output of `rt try`."""
    found = {}
    for file in files:
        own = []
        for line in file.read_text(errors="replace").splitlines():
            if line.startswith("== "):
                own = found[int(line.rpartition("-")[2])] = []
            else:
                own.append(line)
    return found


def compare(crate, files, words):
    """Counts right and wrong results, and those that weren't tried."""
    told, passed, failed = written(files), 0, 0
    for k, piece in enumerate(pieces_of(crate, words)):
        if k not in told:
            continue
        at = 0
        for item, counts in piece:
            got = told[k][at : at + len(item.answers)]
            at += len(item.answers)
            if not counts:
                continue
            wrong = [(one, other) for one, other in zip([*got, *["nothing"] * len(item.answers)], item.answers) if one != other]
            passed, failed = passed + len(item.answers) - len(wrong), failed + len(wrong)
            for one, other in wrong:
                print(f"{crate}: {one[:200]}\n  wanted: {other[:200]}", file=sys.stderr)
    untried = sum(len(item.answers) for item in items_of(crate)) - passed - failed
    print(f"{passed} passed, {failed} failed, {untried} not tried")
    return 0 if passed + failed else 1


def main():
    command, crate, *paths = sys.argv[1:]
    at = paths.index("--words") if "--words" in paths else len(paths)
    words, paths = paths[at + 1 :], list(map(pathlib.Path, paths[:at]))
    return cut(crate, paths, words) if command == "cut" else compare(crate, paths, words)


if __name__ == "__main__":
    raise SystemExit(main())
