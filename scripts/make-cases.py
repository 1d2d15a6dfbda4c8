#!/usr/bin/env python3
"""Makes the files stdin and stdout of crates/vx_cases: cases of an independent model, of real streams, and worked ones, with what is expected.

usage: scripts/make-cases.py VECTORS STREAMS

No expected output is taken from the program. The worked cases are in worked_cases.py, told_cases.py, fed_cases.py, verify_cases.py,
hostile_cases.py, play_cases.py, trial_cases.py, explain_cases.py, fields_cases.py, inputs_cases.py and pushed_cases.py. VECTORS and STREAMS
are folders that aren't in the repository. Run scripts/doc_cases.py after it.

VECTORS has these files. `_` in LINE is a blank, and `-` is nothing.

    merge.txt     A case is a line `case N merge WORDS`, with the number of a source after each `=`; a line `source BYTES` for each source,
                  in hexadecimal; and a line `status=S err=LINE out=BYTES`, the expected result.
    streams.txt   A stream is a line `stream N` and a line for each NAL unit, which begins with its bytes in hexadecimal. Each unit comes
                  after 00 00 00 01.
    extract.txt   Lines `stream N WORDS status=S err=LINE out=BYTES`.
    show.txt      A stream is a line `stream N status=S err=LINE`, and the lines that are shown of it.
    verify.txt    As merge.txt, with the number of the finished stream after `verify merge`, and `out` as text.
    pictures.txt  A stream is a line `stream N`, a line `picture` for each picture and a line `slice` for each slice, with words NAME=VALUE.
    play.txt      As merge.txt.
    trial.txt     Lines `SEED SOURCES PICTURES | LINE` or `generate SEED SOURCES PICTURES source K BYTES`.

STREAMS has families of streams. Its MANIFEST.json names them, with their corners, and the file that each is merged to.
"""
import os
import sys

from case_lines import Cases, Expected, expected_of, family_merges, model_merges, units
from explain_cases import add_explained
from fed_cases import add_fed
from fields_cases import add_family_sets, add_fields, add_model_fields
from hostile_cases import add_hostile
from inputs_cases import add_inputs, add_model_inputs
from joined_streams import joined
from plain_streams import stream
from play_cases import add_model_played, add_played
from pushed_cases import add_pushed
from told_cases import add_told
from trial_cases import add_trials
from verify_cases import add_family_compared, add_model_compared, add_verified
from worked_cases import add_worked

# Settings: reads and output, a byte at a time.
BYTEWISE = ("pieces all 1", "pieces err 1")
CRATE = os.path.join(os.path.dirname(os.path.abspath(__file__)), "..", "crates", "vx_cases")


def add_model_merges(cases, path):
    """Adds the merges of an independent model."""
    for merge in model_merges(path):
        cases.about(f"merge {merge.name} of an independent model")
        cases.merged(merge.corners, merge.sources, merge.expected, merge.level)
        cases.case(f"check merge {cases.placed(merge.corners, merge.sources)}", merge.expected.verdict(), *BYTEWISE)


def sections(path):
    """Returns the lines after each line `stream N ..`, by N: that line, and the others."""
    found = {}
    for line in filter(None, open(path).read().split("\n")):
        if line.startswith("stream "):
            found[line.split()[1]] = lines = [line]
        else:
            lines.append(line)
    return found


def add_model_streams(cases, folder):
    """Adds what an independent model shows and extracts of its streams."""
    streams = {number: stream(*(bytes.fromhex(line.split()[0]) for line in lines[1:]))
               for number, lines in sections(os.path.join(folder, "streams.txt")).items()}
    shown = sections(os.path.join(folder, "show.txt"))
    extracted = [line for line in open(os.path.join(folder, "extract.txt")) if line.strip()]
    for number, source in streams.items():
        cases.about(f"stream {number} of an independent model: shown, and its subpictures extracted")
        name = cases.name(source)
        expected = expected_of(shown[number][0])
        expected.out = "".join(line + "\n" for line in shown[number][1:]).encode()
        cases.case(f"show {name}", expected)
        for line in extracted:
            words = line.split(" status=")[0].split()
            if words[1] == number:
                cases.checked(f"{' '.join(words[2:])} {name}", expected_of(line))
                cases.case(f"{' '.join(words[2:])} {name}", expected_of(line), *BYTEWISE)


def add_joined(cases, folder):
    """Adds what an independent model shows of its streams, joined to one with ends of sequence between them."""
    streams, shown = ({number: lines[1:] for number, lines in sections(os.path.join(folder, name)).items()}
                      for name in ("streams.txt", "show.txt"))
    stream, lines = joined(streams, shown)
    cases.about("streams of an independent model joined to one: shown")
    cases.case(f"show {cases.name(stream)}", Expected(out=lines.encode()))


# The first fields of an SPS that have to be the same in all sources, with their place in its second byte.
FIRST_FIELDS = ((102, 5, 7), (103, 3, 3), (104, 1, 3))


def first_difference(one, other):
    """Returns the first of these fields that differs between two streams, each of which begins with an SPS."""
    byte, another = (units(source)[0][3] for source in (one, other))
    fields = [field for field, shift, mask in FIRST_FIELDS if (byte ^ another) >> shift & mask]
    return fields[0] if fields else None


def add_families(cases, folder):
    """Adds real streams: each family at its corners, and with its last stream exchanged for the first one of another family."""
    families = list(family_merges(folder))
    for family in families:
        cases.about(f"real streams: {family.name}")
        corners, sources = family.corners, family.sources
        cases.merged(corners, sources, family.expected)
        others = [other.sources[0] for other in families if other is not family]
        for other in others:
            field = first_difference(sources[0], other)
            if field:
                line = f"M2 picture 0 source {len(sources) - 1} field {field}"
                cases.merged(corners, [*sources[:-1], other], Expected(1, line))
        add_family_compared(cases, family.name, family.expected.out, corners, sources, others, first_difference)


def main(vectors, streams):
    cases = Cases()
    add_worked(cases)
    add_families(cases, streams)
    add_model_merges(cases, os.path.join(vectors, "merge.txt"))
    add_model_streams(cases, vectors)
    add_told(cases)
    add_fed(cases)
    add_verified(cases)
    add_hostile(cases)
    add_model_compared(cases, os.path.join(vectors, "verify.txt"))
    add_played(cases)
    add_model_played(cases, os.path.join(vectors, "play.txt"))
    add_trials(cases, os.path.join(vectors, "trial.txt"))
    add_explained(cases)
    add_joined(cases, vectors)
    add_fields(cases)
    add_family_sets(cases, family_merges(streams))
    add_model_fields(cases, *({number: lines[1:] for number, lines in sections(os.path.join(vectors, name)).items()}
                              for name in ("streams.txt", "show.txt")))
    add_inputs(cases)
    add_model_inputs(cases, *({number: lines[1:] for number, lines in sections(os.path.join(vectors, name)).items()}
                              for name in ("streams.txt", "show.txt", "pictures.txt")))
    add_pushed(cases)
    cases.write(CRATE)
    print(f"{cases.count} cases, {len(cases.names)} streams")


main(*sys.argv[1:])
