#!/usr/bin/env python3
"""Makes the files stdin and stdout of crates/vx_vectors: the lines that it reads, and their expected output.

usage: scripts/make-vectors.py FOLDER

FOLDER has the vectors of an independent model of the format; it isn't in the repository:

    vps.txt, sps.txt, pps.txt, aps.txt   On each line an RBSP in hexadecimal, `-` if it is empty, and after it `ok` with its items, `none`
                                         for a set that is dropped, or `refused` with the parts of the refusal.
    sps_meaning.txt, pps_meaning.txt     On each line an RBSP that is accepted, and what the set means.
    streams.txt                          A line `stream N`, and a line for each NAL unit, in hexadecimal. After the unit comes nothing if it
                                         is dropped, `set` with the result for a parameter set, `header` with the items of a picture header,
                                         or `slice` with what is read of a slice header, and ` | header` with the items of the picture header
                                         inside it.
    pictures.txt                         A line `stream N`, and lines for its pictures and their slices.

The expected output is the model's, word for word, with three additions. A unit that is dropped gets `dropped`. What a set means comes after
its items. Structures that can be written again get `written same`: sets except those of a VPS, which is never written, picture headers, and
slice headers with the picture header that may be inside.

After these come lines for single calls, from call_lines.py and list_lines.py, and lines on sets and headers from structure_cases.py, all
worked by hand.
"""
import pathlib
import sys

from call_lines import call_lines
from structure_cases import structure_lines

SAME = " | written same"
VPS = 14


def lines_of(path):
    """Returns the lines that aren't empty, each as its first word and the rest."""
    for line in path.read_text().splitlines():
        if line:
            yield line.partition(" ")[::2]


def streams_of(path):
    """Returns the lines of each stream, by its number."""
    streams = {}
    for first, others in lines_of(path):
        if first == "stream":
            lines = streams[others] = []
        else:
            lines.append((first, others))
    return streams


def answer_to_set(kind, answer, told):
    """Returns the expected output for a set of a kind, given what the model says of it."""
    if not answer.startswith("ok ") or kind == "vps":
        return answer
    return answer + "".join(f" | {words}" for words in told) + SAME


def answer_to_unit(unit, answer):
    """Returns the expected output for a unit of a stream."""
    if not answer:
        return "dropped"
    is_vps = int(unit[2:4], 16) >> 3 == VPS
    return answer if is_vps or answer == "set none" else answer + SAME


def sets(folder):
    """Returns the lines of sets, each with its expected output."""
    for kind in ("vps", "sps", "pps", "aps"):
        meanings = folder / f"{kind}_meaning.txt"
        told = dict(lines_of(meanings)) if meanings.exists() else {}
        for rbsp, answer in lines_of(folder / f"{kind}.txt"):
            meaning = [told[rbsp]] if rbsp in told else []
            yield f"{kind} {rbsp}", answer_to_set(kind, answer, meaning)


def streams(folder):
    """Returns the lines of streams, each with its expected output."""
    pictures = streams_of(folder / "pictures.txt")
    for number, units in streams_of(folder / "streams.txt").items():
        yield f"stream {number}", f"stream {number}"
        for unit, answer in units:
            yield f"unit {unit}", answer_to_unit(unit, answer)
        yield "pictures", "\n".join(" ".join(line) for line in pictures[number])


folder = pathlib.Path(sys.argv[1])
crate = pathlib.Path(__file__).resolve().parent.parent / "crates" / "vx_vectors"
asked, answered = zip(*sets(folder), *streams(folder), *call_lines(), *structure_lines())
(crate / "stdin").write_text("".join(line + "\n" for line in asked))
(crate / "stdout").write_text("".join(lines + "\n" for lines in answered))
print(f"{len(asked)} lines are asked, {sum(lines.count(chr(10)) + 1 for lines in answered)} are answered")
