"""Cases of `verify merge`: worked ones, those of an independent model, and real streams. Besides these, each merge of case_lines.py that has
pictures is verified with its sources.
"""
import re

from case_lines import PH, SLICES, Expected, expected_of, unhex, units
from plain_streams import ALF, TRAIL, Header, aps, partition, ph, pps, slice_unit, sps, stream
from told_cases import BYTEWISE, RIGHT, SIXTY, TWICE, WHOLE, not_understood, say, say_in_pieces
from worked_cases import (A, B, BESIDE, EMPTY, I0, M, WITH_ALF, alf_pair, alf_slice, failed, filter_source, filters_written, gray, left, pair_sets,
                          refused, right, wall)

BROKEN = bytes.fromhex("000001 8079")
# The byte of a forbidden bit in the header of the first unit after picture A.
BROKEN_BYTE = len(A) + 3


def verified(pictures=1):
    """Returns the line that is printed if all rounds are verified."""
    return Expected(out=b"yes pictures %d\n" % pictures)


def compared(cases, finished, corners, sources, line=None, pictures=1, settings=(), sizes=(WHOLE, BYTEWISE)):
    """Adds a finished stream and its sources."""
    words = f"verify merge {cases.name(finished)} {cases.placed(corners, sources)}"
    say_in_pieces(cases, words, refused(line) if line else verified(pictures), sizes, settings)


def add_compared(cases):
    """Adds two pictures side by side, and what differs."""
    cases.about("verify: two sources; another QP; another place; two pictures in a source; a picture that is its only subpicture; one source less")
    compared(cases, M, BESIDE, (A, A))
    compared(cases, M, BESIDE, (A, B), "C4 picture 0 source 2 slice 0 part 10 field 0")
    compared(cases, M, ("0,0", "128,0"), (A, A), "C2 picture 0 source 2")
    compared(cases, M, BESIDE, (A, TWICE), "C5 picture 1 source 0")
    compared(cases, RIGHT, ("0,0",), (A,))
    compared(cases, M, ("0,0",), (A,), "C1 picture 0 source 0")
    cases.about("verify: no pictures; two pictures of sources with one; corners in another order; a byte more of slice data; a level of its own")
    compared(cases, EMPTY, BESIDE, (EMPTY, EMPTY), pictures=0)
    compared(cases, M + M, BESIDE, (TWICE, TWICE), pictures=2)
    compared(cases, M + M, BESIDE, (A, A), "C5 picture 1 source 1")
    compared(cases, M, ("64,0", "0,0"), (A, A), "C2 picture 0 source 1")
    compared(cases, M, BESIDE, (gray(payload=b"\x5a\xa7\x80\x80"), A), "C4 picture 0 source 1 slice 0 part 12 field 0")
    compared(cases, stream(*pair_sets(level=93), ph(I0), left(I0), right(I0)), BESIDE, (A, A))
    cases.about("verify: a source of several subpictures; one of another size; a subpicture of two slices, and a source of one")
    compared(cases, M, BESIDE, (M, A), "C1 picture 0 source 1")
    compared(cases, M, BESIDE, (A, gray(height=128)), "C4 picture 0 source 2 slice 0 part 11 field 0")
    rows = partition(32, [1], [2], 2, [("ue", 1), ("ue", 0)])
    column = stream(sps(32, 64, 32), pps(32, 64, partition=rows), ph(I0), *(slice_unit(I0, address=(k, 1)) for k in range(2)))
    compared(cases, column, ("0,0",), (gray(width=32, ctu=32),), "C3 picture 0 source 1")
    cases.about("verify: a finished stream of another QP in one slice, and of one bit in its slice data; a set that comes too late")
    changed = stream(*pair_sets(), ph(I0), left(I0), right(I0, qp_delta=-1))
    compared(cases, changed, BESIDE, (A, A), "C4 picture 0 source 2 slice 0 part 10 field 0")
    compared(cases, M[:-2] + bytes([M[-2] ^ 1]) + M[-1:], BESIDE, (A, A), "C4 picture 0 source 2 slice 0 part 12 field 0")
    late = stream(*(units(M)[k] for k in (0, 2, 1, 3, 4)))
    compared(cases, late, BESIDE, (A, A), "S1 source 0 unit 1 PPS 0")
    add_late_filters(cases)


def add_late_filters(cases):
    """Adds bodies of the adaptive loop filter that come one picture late."""
    cases.about("verify: bodies of the adaptive loop filter that are sent behind the picture that needs them, and in time")
    a, b = [bytes([0xA0 + k]) for k in range(9)], [b"\0\0\1" + bytes([0xB0 + k]) for k in range(4)]
    one, other = filter_source(a, b)
    ids = (1, 3, 4, 6)
    one += [*(aps(ALF, k, body) for k, body in zip(ids, a[4:8])), alf_slice(TRAIL, 1, ids)]
    other += [alf_slice(TRAIL, 1, range(4))]
    bodies = [aps(ALF, k, body) for k, body in enumerate(a[4:8])]
    pair = alf_pair(Header(TRAIL, lsb=1), range(4), range(4, 8))
    sources = stream(*one), stream(*other)
    compared(cases, stream(*filters_written(a, b), *bodies, *pair), BESIDE, sources, pictures=2)
    compared(cases, stream(*filters_written(a, b), *pair, *bodies), BESIDE, sources, "C4 picture 1 source 1 slice 0 part 6 field 0")


def add_orders(cases):
    """Adds which of several differences is reported."""
    cases.about("verify: what breaks a rule in a round comes first, whichever file; then a difference in length; then what differs in the round")
    compared(cases, A, BESIDE, (A, BROKEN), "F3 source 2 byte 3")
    compared(cases, M, BESIDE, (A, A + BROKEN), f"F3 source 2 byte {BROKEN_BYTE}")
    compared(cases, M + BROKEN, BESIDE, (A, TWICE), f"F3 source 0 byte {len(M) + 3}")
    compared(cases, M + M, BESIDE, (TWICE, A + B + A), "C4 picture 1 source 2 slice 0 part 10 field 0")
    compared(cases, M + M, ("0,0", "128,0"), (A, A), "C2 picture 0 source 2")
    compared(cases, EMPTY, BESIDE, (A, A), "C5 picture 0 source 0")
    compared(cases, M, BESIDE, (A, EMPTY), "C5 picture 0 source 2")
    compared(cases, A, ("64,0", "64,0"), (B, M), "C1 picture 0 source 0")
    compared(cases, M, ("64,0", "64,0"), (B, M), "C1 picture 0 source 2")
    compared(cases, M, ("64,0", "64,0"), (B, A), "C2 picture 0 source 1")
    compared(cases, M, BESIDE, (B, gray(payload=b"\x80")), "C4 picture 0 source 1 slice 0 part 10 field 0")


def add_many(cases):
    """Adds as many sources as there may be, and one more."""
    cases.about("verify: 65 sources, of which no file is read; and 64, with the finished stream 65 files")
    corners = [f"{64 * (k % 8)},{64 * (k // 8)}" for k in range(65)]
    compared(cases, wall(), corners, [A] * 65, "L4", settings=("fail all 0",), sizes=(WHOLE,))
    compared(cases, wall(), corners[:64], [A] * 64, sizes=(WHOLE,))
    compared(cases, wall(), corners[:64], [A] * 63 + [B], "C4 picture 0 source 64 slice 0 part 10 field 0", sizes=(WHOLE,))
    words = f"verify merge {cases.name(EMPTY)} {cases.placed(corners[:64], [EMPTY] * 64)}"
    say(cases, words, failed("read fault source 64"), "closed 64")


def add_unread(cases):
    """Adds files that can't be read, and each read failing once."""
    cases.about("verify: a file that can't be read; each read fails once: 60 bytes a read, and of the finished stream a byte")
    words = f"verify merge {cases.name(M + M)} {cases.placed(BESIDE, (TWICE, TWICE))}"
    lengths = [len(source) for source in (M + M, TWICE, TWICE)]
    for k, length in enumerate(lengths):
        fault = failed(f"read fault source {k}")
        say(cases, words, fault, f"closed {k}")
        # There is one more read after the last byte.
        reads = -(-length // 60) + 1
        for call in range(reads):
            say(cases, words, fault, *SIXTY, f"fail {k} {call}")
        say(cases, words, verified(2), *SIXTY, f"fail {k} {reads}")
    for call in range(lengths[0] + 1):
        say(cases, words, failed("read fault source 0"), *BYTEWISE, f"fail 0 {call}")
    say(cases, words, verified(2), *BYTEWISE, f"fail 0 {lengths[0] + 1}")
    cases.about("verify: where a round differs nothing is read for the next one; the second read of each file")
    say(cases, f"verify merge {cases.name(M + M)} {cases.placed(('0,0', '128,0'), (TWICE, TWICE))}", refused("C2 picture 0 source 2"),
        "pieces all 100", "fail all 1")
    say(cases, words, failed("read fault source 0"), "pieces all 100", "fail all 1")
    cases.about("verify: a write that fails, each of a byte; a write to `err` that fails")
    say(cases, words, failed("write fault"), "fail out 0")
    line = verified(2).out
    for call in range(len(line)):
        say(cases, words, failed("write fault", line[:call]), "pieces out 1", f"fail out {call}")
    cases.case(f"verify merge {cases.name(M)} {cases.placed(('0,0', '128,0'), (A, A))}", Expected(1, "C2 picture~"), "pieces err 1",
               "fail err 10")


def add_words(cases):
    """Adds arguments."""
    cases.about("words of verify merge: the finished stream may have any name; and those that aren't understood")
    cases.named("64,0=m", M)
    say(cases, f"verify merge 64,0=m {cases.placed(BESIDE, (A, A))}", verified())
    cases.named("--level", M)
    say(cases, f"verify merge --level {cases.placed(BESIDE, (A, A))}", verified())
    not_understood(cases, "verify", "verify merge", "verify merge m", "verify merge 0,0=a", "verify m 0,0=a", "verify extract m 0,0=a",
                   "verify merge m a", "verify merge m 0,0=", "verify merge m 0,0=a b", "verify merge m 00,0=a", "verify merge m 16384,0=a",
                   "verify merge --level 51 m 0,0=a", "verify merge m --level 51 0,0=a", "verify merge m 0,0=a --level 51",
                   "merge verify m 0,0=a", "check verify merge m 0,0=a")


def add_model_compared(cases, path):
    """Adds what an independent model verifies: finished streams and their sources, whole and changed."""
    for line in open(path):
        words = line.split()
        if words[:1] == ["case"]:
            cases.about(f"verify {words[1]} of an independent model")
            finished, placings, sources = int(words[4]), [word.split("=") for word in words[5:]], []
        elif words[:1] == ["source"]:
            sources.append(unhex("".join(words[1:])))
        elif words:
            status, err, out = re.search(r"status=(\d+) err=(\S+) out=(\S*)", line).groups()
            told = b"" if out == "-" else (out.replace("_", " ") + "\n").encode()
            expected = Expected(int(status), expected_of(f"status={status} err={err} out=-").err, told)
            placed = cases.placed([corner for corner, _ in placings], [sources[int(k)] for _, k in placings])
            say_in_pieces(cases, f"verify merge {cases.name(sources[finished])} {placed}", expected)


def slice_count(source):
    """Returns how many slices the first picture of a stream has."""
    count = 0
    for nal_unit in units(source):
        kind = nal_unit[1] >> 3
        if kind == PH and count:
            break
        if kind in SLICES and nal_unit[2] >= 0x80:
            return 1
        count += kind in SLICES
    return count


# What differs first if two sources of a real family are exchanged, at the corners that they had: the filters' bodies, the QP of both
# PPSs (the slices have the same delta), or the number of slices.
EXCHANGED = {"alf": "C4 picture 0 source 1 slice 0 part 6 field 0", "gray2": "C4 picture 0 source 1 slice 0 part 10 field 0",
             "gray4": "C4 picture 0 source 1 slice 0 part 10 field 0", "ldp": "C4 picture 0 source 1 slice 0 part 10 field 0",
             "tiles": "C3 picture 0 source 1"}


def add_family_compared(cases, family, merged, corners, sources, others, difference):
    """Adds a real stream and its sources: with two of them exchanged, with one of another family, and with a bit of its slice data
    changed.
    """
    cases.about(f"verify: real streams: {family}")
    compared(cases, merged, corners, [sources[1], sources[0], *sources[2:]], EXCHANGED[family])
    last = len(sources)
    for other in others:
        field = difference(sources[0], other)
        if slice_count(other) != slice_count(sources[-1]):
            compared(cases, merged, corners, [*sources[:-1], other], f"C3 picture 0 source {last}")
        elif field:
            compared(cases, merged, corners, [*sources[:-1], other], f"C4 picture 0 source {last} slice 0 part 2 field {field}")
    nal_units = units(merged)
    last_slice = nal_units[-1]
    changed = last_slice[:-2] + bytes([last_slice[-2] ^ 8]) + last_slice[-1:]
    pictures = sum(nal_unit[1] >> 3 == PH for nal_unit in nal_units)
    line = f"C4 picture {pictures - 1} source {last} slice {slice_count(sources[-1]) - 1} part 12 field 0"
    compared(cases, stream(*nal_units[:-1], changed), corners, sources, line)


def add_verified(cases):
    add_compared(cases)
    add_orders(cases)
    add_many(cases)
    add_unread(cases)
    add_words(cases)
