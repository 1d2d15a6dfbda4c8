"""Worked cases of `show`, `extract`, the checks and some merges: outputs, refusals, and reads and writes that fail.

A stream that isn't made by plain_streams.py is given unit by unit in hexadecimal. It was made by an independent model, as was the output
for it; or it is one of these with a field or a few bytes changed.
"""
import structure_cases as spelled
from case_lines import Expected, units
from plain_streams import PAYLOAD, PPS, SEI, SPS, TRAIL, Tools, pps, slice_unit, sps, stream
from small_streams import Writer, unit
from worked_cases import A, B, BESIDE, EMPTY, I0, M, failed, gray, lmcs_source, refused, scaling_source

# How the bytes of all sources come: all at once, a byte a read, or 60.
WHOLE, BYTEWISE, SIXTY = (), ("pieces all 1",), ("pieces all 60",)
TWICE = A + A
GRAY_SPS, GRAY_PPS, GRAY_SLICE = (unit.hex() for unit in units(A))


def given(nal_units):
    """Returns a byte stream of units in hexadecimal."""
    return stream(*map(bytes.fromhex, nal_units.split()))


def say(cases, words, expected, *settings):
    """Adds a case whose line is written a byte at a time."""
    cases.case(words, expected, *settings, *(("pieces err 1",) if expected.err else ()))


def say_in_pieces(cases, words, expected, sizes=(WHOLE, BYTEWISE), settings=()):
    """Adds such a case with bytes that come in each of these ways."""
    for pieces in sizes:
        say(cases, words, expected, *pieces, *settings)


def not_understood(cases, *lines):
    for words in lines:
        say(cases, words, Expected(2, "words not understood"))


# What `show` prints.


def told(*parts):
    """Returns lines. A tuple is the line of a unit: its place, its length, its type, and a TemporalId that isn't 0. Everything else is
    a line itself.
    """
    lines = []
    for part in parts:
        if isinstance(part, tuple):
            offset, length, kind, *tid = part
            part = f'{{"bytes":{length},"offset":{offset},"tid":{tid[0] if tid else 0},"type":{kind}}}'
        lines.append(part + "\n")
    return "".join(lines).encode()


def sps_line(width=64, height=64, subpictures=1):
    return f'{{"ctu":64,"height":{height},"sps":0,"subpictures":{subpictures},"width":{width}}}'


def pps_line(columns=1, slices=1):
    return f'{{"columns":{columns},"pps":0,"rows":1,"slices":{slices},"sps":0}}'


def picture_line(picture=0, poc=0, clvss="true", slices=1):
    return f'{{"clvss":{clvss},"picture":{picture},"poc":{poc},"slices":{slices},"subpictures":{slices}}}'


GRAY_SETS = told((4, 20, 15), sps_line(), (28, 10, 16), pps_line())
GRAY_LINES = GRAY_SETS + told((42, 7, 8), picture_line())
TWICE_LINES = GRAY_LINES + told((53, 20, 15), sps_line(), (77, 10, 16), pps_line(), (91, 7, 8), picture_line(1))
PAIR_SETS = told((4, 22, 15), sps_line(128, 64, 2), (30, 12, 16), pps_line(2, 2))
PAIR_FRONT = PAIR_SETS + told((46, 4, 19))
BROKEN = bytes.fromhex("000001 00a1 000001 8079")
BROKEN_LINES = told((3, 2, 20))


def add_shown(cases):
    """Adds what `show` prints of whole streams, and of streams that are refused."""
    cases.about("show: start codes of three bytes among zeros; what an encoder wrote; no units")
    among_zeros = bytes(4) + bytes.fromhex("000001 007900030233800000820412003de00300608001 000001 00810000410208984080 000000"
                                           "000001 0041c4185aa780 0000")
    encoded = given("007900030233800000920412a00cf7c00c01820004 00810000490208980902 "
                    "0041c4018077732243e2cad6796e06a63d00d37b9d467b564cee04f1e3d1e2278380c6ee0a298b1e")
    sizes = (WHOLE, BYTEWISE, SIXTY)
    add_tables(cases, [(A, GRAY_LINES, ""),
                       (among_zeros, told((7, 20, 15), sps_line(), (30, 10, 16), pps_line(), (46, 7, 8), picture_line()), ""),
                       (encoded, told((4, 21, 15), sps_line(72), (29, 10, 16), pps_line(), (43, 40, 8), picture_line()), ""),
                       (EMPTY, EMPTY, ""),
                       (bytes(4), EMPTY, "")], sizes)
    cases.about("show: framing: bytes outside a unit, what emulation prevention rules out, a forbidden bit, a header that is cut")
    add_tables(cases, [(bytes.fromhex("0000000001 42"), EMPTY, "F3 source 0 byte 5"),
                       (bytes.fromhex("41 000001"), EMPTY, "F1 source 0 byte 0"),
                       (bytes.fromhex("000001 0079 000002"), EMPTY, "F2 source 0 byte 7"),
                       (BROKEN, BROKEN_LINES, "F3 source 0 byte 8"),
                       (bytes.fromhex("000001 00a280 000000 02"), told((3, 3, 20, 1)), "F1 source 0 byte 9")], sizes)
    cases.about("show: no PPS; no slice data; no last slice; a PPS between the slices; a set that is cut; 2^32 - 1 subpictures")
    sets_of_pair, slices_of_pair = units(M)[:2], units(M)[2:]
    add_tables(cases, [(stream(sps(64, 64), slice_unit(I0, inside=True)), told((4, 20, 15), sps_line()), "S1 source 0 unit 1 PPS 0"),
                       (A[:-3], GRAY_SETS, "S11 source 0 unit 2"),
                       (stream(*units(M)[:-1]), PAIR_FRONT + told((54, 6, 8)), "S4 source 0 unit 4"),
                       (stream(*sets_of_pair, *slices_of_pair[:2], sets_of_pair[1], slices_of_pair[2]), PAIR_FRONT + told((54, 6, 8)),
                        "S3 source 0 unit 4"),
                       (A[:12], EMPTY, "Y source 0 unit 0 field 22 bit 40 Short"),
                       (given("0079000302338000004081050000030001fffffffe"), EMPTY, "L9 source 0 unit 0")], sizes)
    cases.about("show: the lines of two units are one write, and those of the third, which the end shows, are another")
    words = f"show {cases.name(A)}"
    say(cases, words, Expected(out=GRAY_LINES), "fail out 2")
    say(cases, words, failed("write fault", GRAY_SETS), "fail out 1")
    say(cases, words, failed("write fault"), "fail out 0")


def add_tables(cases, rows, sizes=(WHOLE, BYTEWISE)):
    """Adds what `show` prints of streams that come in such pieces."""
    for source, lines, line in rows:
        say_in_pieces(cases, f"show {cases.name(source)}", refused(line, lines) if line else Expected(out=lines), sizes)


def end_rows():
    """Returns counts, lengths and numbers at their ends, and one beyond: what these are of, and streams, what is shown of them, and
    their refusal.
    """
    tall = told((4, 21, 15), sps_line(64, 128), (29, 10, 16), pps_line())
    other_sets = told((4, 22, 15), sps_line(), (30, 10, 16), pps_line())
    other_pps = told((4, 20, 15), sps_line(), (28, 11, 16), pps_line())
    yield "a picture header in a slice of a picture of two", [
        (stream(*units(M)[:2]) + given("0041c40c5aa780 0041585aa780"), PAIR_SETS, "S15 source 0 unit 2")]
    yield "a code of 32 zeros; no width, and one that is too large; 1,000 subpictures, and one more", [
        (given("007900030233800000408105000003000080"), EMPTY, "Y source 0 unit 0 field 117 bit 80 LongCode"),
        (given("007900030233800020412003de003006080010"), EMPTY, "Y source 0 unit 0 field 109 bit 50 OutOfRange"),
        (given("007900030233800000030080120412003de00300608001"), EMPTY, "L6 source 0 unit 0"),
        (given("007900030233800000408105007d10"), EMPTY, "Y source 0 unit 0 field 120 bit 104 Short"),
        (given("007900030233800000408105007d3000000300"), EMPTY, "L9 source 0 unit 0")]
    yield "too many reference picture list structures, and entries of one; extensions and entry points that are too long", [
        (given("007900030233800000820412003de002042ffffffffffffffff803040008"), EMPTY, "L8 source 0 unit 0"),
        (given("007900030233800000820412003de00283f55555555555555400c10002"), EMPTY, "L7 source 0 unit 0"),
        (given(f"{GRAY_SPS} 00810000410208984480 0041c400204c5aa780"), GRAY_SETS, "Y source 0 unit 2 field 654 bit 10 OutOfRange"),
        (given(f"{GRAY_SPS} 00810000410208984280 0041c41008145aa780"), GRAY_SETS, "Y source 0 unit 2 field 731 bit 12 OutOfRange"),
        (given("007900030233800000820204e00f7800c018200040 00810000410102261020 0041c4104200000300015aa780"), tall,
         "Y source 0 unit 2 field 733 bit 12 OutOfRange")]
    count_sps = "00790003023380000082041264201ef0018030400080"
    qp_pps = "0081000041020898012808"
    yield "the largest picture order count, and one more; the largest quantization parameter of a slice, and one more", [
        (given(f"{count_sps} {GRAY_PPS} 0041c7fffefffec05aa780"), other_sets + told((44, 11, 8), picture_line(0, 2147483647)), ""),
        (given(f"{count_sps} {GRAY_PPS} 0041c400030000c05aa780"), other_sets, "S13 source 0 unit 2"),
        (given(f"{GRAY_SPS} {qp_pps} 0041c4185aa780"), other_pps + told((43, 7, 8), picture_line()), ""),
        (given(f"{GRAY_SPS} {qp_pps} 0041c40a5aa780"), other_pps, "S14 source 0 unit 2")]


def add_ends(cases):
    """Adds counts, lengths and numbers at their ends, and one beyond."""
    for what, rows in end_rows():
        cases.about(f"show: {what}")
        add_tables(cases, rows)
    cases.about("show: counts that are predicted up to an end of sequence, and not from a picture that isn't referred to")
    slices = [(42, 7, 9), picture_line(0, 3), (53, 7, 0), picture_line(1, -1, "false"), (64, 7, 0)]
    last = [(75, 2, 21), (81, 7, 9), picture_line(3, 5)]
    for second, count in (("00018ff85aa780", -7), ("0001aff85aa780", 9)):
        source = given(f"{GRAY_SPS} {GRAY_PPS} 0049c4de5aa780 {second} 00018cf85aa780 00a9 0049c55e5aa780")
        add_tables(cases, [(source, GRAY_SETS + told(*slices, picture_line(2, count, "false"), *last), "")])


def add_long(cases):
    """Adds units of many bytes."""
    one = bytes.fromhex("000001 00a1")
    rows = [((one, (b"\x81", count)), told((3, count + 2, 20)), "") for count in (65_531, 65_530, 65_532, 199_998)]
    rows += [((one, (b"\x81", 65_529), one), told((3, 65_531, 20), (65_537, 2, 20)), ""),
             ((one, (b"\x81", 8_388_606)), told((3, 8_388_608, 20)), ""),
             ((one + one, (b"\x81", 8_388_607)), told((3, 2, 20)), "L1 source 0 unit 1"),
             ((one, (b"\x81", 8_500_000), bytes.fromhex("000002 81")), EMPTY, "F2 source 0 byte 8500007"),
             ((one + b"\x80", (b"\0", 10_000_000), bytes.fromhex("01 00a1")), told((3, 3, 20), (10_000_007, 2, 20)), "")]
    cases.about("show: units that end near byte 65,536; of 200,000 bytes; the longest, and a longer one; 10,000,000 zeros")
    add_tables(cases, rows, (WHOLE, ("pieces all 60 65537",)))


# The length of what is shown of two pictures, given how many of their bytes were read: with the 00 00 00 or 00 00 01 that follows a
# unit.
TWICE_LENGTHS = ((0, 0), (27, 100), (41, 193), (52, 296), (76, 397), (90, 490))


def at(steps, count):
    """Returns the values of the last step that isn't above the count."""
    return [step[1:] for step in steps if step[0] <= count][-1]


def add_shown_faults(cases):
    """Adds reads of `show` that fail, and writes to `err`. The tests of vx_app make each write to `out` fail once: as cases these would
    be half a million digits.
    """
    cases.about("show: a byte a read: the lines are written of the units whose end is seen before the read that fails")
    for source, reads in ((A, 50), (TWICE, 99)):
        words = f"show {cases.name(source)}"
        for call in range(reads):
            length, = at(TWICE_LENGTHS, min(call, len(source) - 1))
            say(cases, words, failed("read fault source 0", TWICE_LINES[:length]), *BYTEWISE, f"fail 0 {call}")
    cases.about("show: a byte a write: the call that would fail is the one behind the last")
    words = f"show {cases.name(A)}"
    settings = ("pieces out 1", f"fail out {len(GRAY_LINES)}")
    say_in_pieces(cases, words, Expected(out=GRAY_LINES), (WHOLE, BYTEWISE, SIXTY), settings)
    cases.about("show: a byte a write, of which each fails once; of two pictures, every fifth")
    for source, lines, step in ((A, GRAY_LINES, 1), (TWICE, TWICE_LINES, 5)):
        for call in range(0, len(lines), step):
            cases.case(f"show {cases.name(source)}", failed("write fault", lines[:call]), "pieces out 1", f"fail out {call}")
    cases.about("show: the sets are one write, of which the sink takes some bytes, and fails at the next call: those bytes are written")
    for room in range(1, len(GRAY_SETS), 7):
        cases.case(words, failed("write fault", GRAY_LINES[:room]), f"pieces out {room}", "fail out 1")
    cases.about("show: a byte a write to `err`, of which each fails once: nothing else changes")
    line = "F3 source 0 byte 8"
    for call in range(len(line) + 1):
        expected = Expected(1, line[:call] + "~" if call else "", BROKEN_LINES)
        cases.case(f"show {cases.name(BROKEN)}", expected, "pieces err 1", f"fail err {call}")


# What is extracted.

# A picture of 64 by 64 samples extracted from two subpictures: its SPS at the left and at the right, and its PPS.
LEFT_SPS, RIGHT_SPS = "007900030233800000820417d001ef001803040008", "007900030233800000820417f001ef001803040008"
PART_PPS, PART_PH = "008100004102081f584008", "00998840"
LEFT = given(f"{LEFT_SPS} {PART_PPS} {PART_PH} 0041185aa780")
RIGHT = given(f"{RIGHT_SPS} {PART_PPS} {PART_PH} 0041585aa780")
HIGHER = stream(sps(64, 64), pps(64, 64), slice_unit(I0, tid=1, inside=True))


def add_extracted(cases):
    """Adds subpictures that are extracted, and those that aren't."""

    def extracted(words, source, out):
        say_in_pieces(cases, f"extract {words} {cases.name(source)}", Expected(out=out))

    cases.about("extract: a picture that is its only subpicture; two of them; another level; a part of a picture")
    extracted("0", A, A)
    extracted("0", TWICE, TWICE)
    extracted("1", M, RIGHT)
    extracted("--level 99 0", A, gray(level=99))
    extracted("--level 93 1", M, RIGHT.replace(b"\x02\x33", b"\x02\x5d"))
    extracted("--tid 0 --level 51 0", A, A)
    cases.about("extract: a picture of TemporalId 1, which its PPS takes; messages, of which those that are carried are one unit")
    extracted("0", HIGHER, stream(sps(64, 64), pps(64, 64, tid=1), slice_unit(I0, tid=1, inside=True)))
    light, transfer, hidden = "90 04 03 e8 01 90", "93 01 10", "05 01 2a"

    def sei(*messages):
        return bytes([0, SEI << 3 | 1]) + bytes.fromhex("".join(messages) + "80")

    for messages, carried in (([sei(light)], [sei(light)]),
                              ([sei(light), sei(hidden, transfer)], [sei(light, transfer)]),
                              ([sei("90 05 03 e8 01 90")], [])):
        extracted("0", stream(*messages) + A, stream(sps(64, 64), pps(64, 64), *carried, slice_unit(I0, inside=True)))
    cases.about("extract: four by four CTUs, of which the lower half becomes a column, a row and a slice; ids that change in the PPS")
    stacked_pps, slices = "00810000101008081c84248c2004", f"{PART_PH} 0041185aa780 0041585aa780"
    extracted("1", given(f"007900030233800000202010155a54007bc00600c10002 {stacked_pps} {slices}"),
              given(f"0079000302338000002020205fc007bc00600c100020 00810000101010207225840080 {PART_PH} 0041585aa780"))
    swapped = given("007900030233800000408105524a003de00300608001 008100002040821447957a530801 00998840 00413b5aa780 00414b5aa780 "
                    "008100002040821449757a530801 00991180 00014f805aa780 00013f805aa780")
    extracted("0", swapped, given("0079000302338000008204164a003de00300608001 008100004102086477d61002 00998840 00413b5aa780 "
                                  "008100004102086497d61002 00991180 00014f805aa780"))
    cases.about("extract: three pictures, of which the second has TemporalId 1")
    first = "0079000302338000004080812003de003006080010 00810000204040898408 0041c41889891774f180"
    second, third = " 000288f899576339a680", " 000189781e2138422e80"
    extracted("--tid 0 0", given(first + second + third), given(first + third))
    extracted("--tid 1 0", given(first + second + third), given(first + second + third))
    cases.about("extract: no picture; no such subpicture; one that isn't treated as a picture, and one that filters leave; a TemporalId")
    sps_front = "007900030233800000202010151b"
    for words, source, line in (
            ("0", EMPTY, "E1 picture 0"),
            ("1", A, "E2 picture 0"),
            ("1", given(f"{sps_front}114007bc00600c100020 {stacked_pps} {slices}"), "E3 picture 0"),
            ("1", given(f"{sps_front}174007bc00600c100020 {stacked_pps} {slices}"), "E4 picture 0"),
            ("--tid 0 0", HIGHER, "E5 picture 0"),
            ("0", stream(*units(M)[:-1]), "S4 source 0 unit 4"),
            ("0", stream(*units(M)[:-1], units(M)[1]), "S3 source 0 unit 4")):
        say_in_pieces(cases, f"extract {words} {cases.name(source)}", refused(line))
    add_checked(cases)
    cases.about("words of extract that aren't understood")
    not_understood(cases, "extract x a", "extract 0", "extract 0 a b", "extract +0 a", "extract 00 a", "extract 1000 a",
                   "extract --tid 7 0 a", "extract --tid 0 a", "extract --level 256 0 a", "extract --level 9 --tid 3 0 a",
                   "extract --tid 1 --tid 1 0 a", "check extract --level 9 0 a", "check 0 a", "check extract 0")


def add_checked(cases):
    """Adds whether a subpicture can be extracted."""
    cases.about("check extract")
    for words, source, pictures in (("0", A, 1), ("1", M, 1), ("0", TWICE, 2)):
        say(cases, f"check extract {words} {cases.name(source)}", Expected(out=b"ok pictures %d\n" % pictures))
    for words, source, line in (("0", EMPTY, "E1 picture 0"), ("--tid 0 0", HIGHER, "E5 picture 0"), ("--tid 1 1", A, "E2 picture 0")):
        say(cases, f"check extract {words} {cases.name(source)}", refused(line))
    say(cases, f"check extract 0 {cases.name(A)}", failed("write fault", b"ok"), "pieces out 1", "fail out 2")
    say(cases, f"check extract 0 {cases.name(A)}", failed("read fault source 0"), "fail 0 0")


# What the first bytes of two pictures side by side are refused for, by the number of bytes from which on it applies. It is nothing if
# only the payload of the right slice is cut. A field has its number and its bit.
CUTS = ((0, "E1 picture 0"), (4, "F3 source 0 byte 4"),
        (6, 100, 0), (8, 11, 16), (9, 13, 24), (10, 14, 32), (11, 22, 40), (14, 109, 50), (15, 110, 65), (16, 117, 80), (17, 127, 88),
        (18, 134, 96), (19, 141, 104), (20, 160, 112), (22, 187, 128), (23, 193, 136), (24, 212, 144),
        (26, "E1 picture 0"), (30, "F3 source 0 byte 30"),
        (32, 400, 0), (35, 403, 11), (36, 404, 26), (37, 410, 40), (38, 418, 46), (39, 425, 56), (40, 435, 64), (41, 462, 72),
        (42, "E1 picture 0"), (46, "F3 source 0 byte 46"),
        (48, 600, 0), (49, 606, 5),
        (50, "S4 source 0 unit 3"), (54, "F3 source 0 byte 54"),
        (56, 700, 0), (57, "S11 source 0 unit 3"),
        (58, "S4 source 0 unit 4"), (64, "F3 source 0 byte 64"),
        (66, 700, 0), (67, "S11 source 0 unit 4"),
        (68, ""))

# How many units are complete, by the number of bytes from which on it applies.
STARTS = ((0, 0), (30, 1), (46, 2), (54, 3), (64, 4))

# The length of what is shown of the first three units, by the number of bytes from which on it applies.
PAIR_LENGTHS = ((0, 0), (26, 101), (42, 194), (50, 236))


def cut_line(count):
    """Returns what the first bytes are refused for."""
    what, *bit = at(CUTS, count)
    unit, = at(STARTS, count)
    return f"Y source 0 unit {unit} field {what} bit {bit[0]} Short" if bit else what


def add_cut(cases):
    """Adds the first bytes of two pictures side by side, for each number of bytes."""
    cases.about("extract: a picture that is cut anywhere")
    for count in range(len(M) + 1):
        line = cut_line(count)
        say(cases, f"extract 0 {cases.name(M[:count])}", refused(line) if line else Expected(out=LEFT))
    cases.about("show: the same; a stream may have no picture")
    for count in range(len(M) + 1):
        length, = at(PAIR_LENGTHS, count)
        lines = PAIR_FRONT[:length]
        if count >= 58:
            lines += told((54, min(count, 60) - 54, 8))
        if count >= 68:
            lines += told((64, count - 64, 8), picture_line(slices=2))
        line = cut_line(count)
        expected = refused(line, lines) if line and line[0] != "E" else Expected(out=lines)
        say(cases, f"show {cases.name(M[:count])}", expected)


def add_extracted_faults(cases):
    """Adds reads and writes of `extract` that fail."""
    name = cases.name(TWICE)
    cases.about("extract: a byte a read: the pictures are written whose end is seen before the read that fails")
    for call in range(99):
        say(cases, f"extract 0 {name}", failed("read fault source 0", EMPTY if call < 52 else A), *BYTEWISE, f"fail 0 {call}")
        say(cases, f"check extract 0 {name}", failed("read fault source 0"), *BYTEWISE, f"fail 0 {call}")
    cases.about("extract: behind the picture that breaks a rule nothing is read")
    for words in ("extract", "check extract"):
        say(cases, f"{words} 1 {name}", refused("E2 picture 0"), *BYTEWISE, "fail 0 52")
    cases.about("extract: a byte a write: each write fails once")
    for call in range(len(TWICE)):
        say(cases, f"extract 0 {name}", failed("write fault", TWICE[:call]), "pieces out 1", f"fail out {call}")
    say(cases, f"extract 0 {cases.name(A)}", failed("write fault"), "fail out 0")
    say(cases, f"extract 0 {cases.name(A)}", failed("read fault source 0"), "fail 0 0")
    say(cases, f"extract 0 {name}", failed("read fault source 0", A), *SIXTY, "fail 0 1")


# What is refused of a merge, and what isn't.


def checked(cases, corners, sources, line=None, pictures=1, sizes=(WHOLE, BYTEWISE)):
    """Adds the check of a merge. A source that is None can't be read."""
    words = f"check merge {cases.placed(corners, [source or EMPTY for source in sources])}"
    closed = [f"closed {k}" for k, source in enumerate(sources) if source is None]
    expected = refused(line) if line else Expected(out=b"ok pictures %d\n" % pictures)
    say_in_pieces(cases, words, expected, sizes, closed)


def gray_with(sps=GRAY_SPS, pps=GRAY_PPS, slice=GRAY_SLICE):
    """Returns the picture with another unit."""
    return given(f"{sps} {pps} {slice}")


def add_rules(cases):
    """Adds merges that each break one rule, by a field or a few bytes."""
    cases.about("check merge: 9 bits; another profile; two tables of CABAC; not referred to; what isn't put out; other kinds")
    deeper = gray_with(sps="007900030233800000820411000f7800c018200040")
    checked(cases, BESIDE, (A, gray(level=99)))
    for other, line in ((deeper, "M2 picture 0 source 1 field 130"),
                        (gray_with(sps="007900030433800000820412003de00300608001"), "M2 picture 0 source 1 field 11"),
                        (gray_with(pps="00810000410208b84080"), "M7 picture 0 source 1 field 433"),
                        (gray_with(slice="0041e4185aa780"), "M8 picture 0 source 1 field 601"),
                        (gray_with(slice="0041c4385aa780"), "M11 picture 0 source 1"),
                        (gray_with(slice="0039c4185aa780"), "M6 picture 0 source 1"),
                        (HIGHER, "M6 picture 0 source 1"),
                        (TWICE, "M14 picture 1 source 0")):
        checked(cases, BESIDE, (A, other), line)
    cases.about("check merge: several subpictures")
    checked(cases, ("0,0",), (M,), "M1 picture 0 source 0")
    checked(cases, ("64,0", "0,0"), (A, M), "M1 picture 0 source 1")
    cases.about("check merge: tile lines through another source; filters across tiles and slices in one source alone")
    four_tiles = given("0079000302338000004080812003de003006080010 0081000020404081f5610020 00998840 0041305aa780")
    checked(cases, ("0,0", "128,0"), (four_tiles, gray(width=128, height=128)), "M5 picture 0 source 1")
    two_tiles = [given(f"007900030233800000408104800f7800c018200040 00810000204082{inner}840080 00998840 0041305aa780")
                 for inner in ("07d5", "07f5")]
    checked(cases, ("0,0", "0,64"), two_tiles, "M13 picture 0 source 1")
    two_slices = [given(f"007900030233800000820204800f7800c018200040 0081000041010207a2{inner}0801 00998840 0041185aa780 0041585aa780")
                  for inner in ("53", "5b")]
    checked(cases, BESIDE, two_slices, "M13 picture 0 source 1")


def add_bytewise(cases):
    """Adds what the other worked cases have of regions, a byte a read."""
    cases.about("check merge: regions, a byte a read")
    tall = gray(height=128)
    narrow, wide = gray(width=1280, height=128, ctu=128), gray(width=1288, height=128, ctu=128)
    for corners, sources, line in (
            (("0,0", "32,0"), (A, A), "M3 picture 0 source 1"), (("0,0", "128,0"), (A, A), "M3 picture 0 source 0"),
            (("64,0", "0,0"), (A, A), "M4 picture 0 source 0"), (BESIDE, (TWICE, A), "M14 picture 1 source 1"),
            (("0,0", "1280,0"), (narrow, wide), None), (("0,0", "1288,0"), (wide, narrow), "M3 picture 0 source 1"),
            (("0,0", "1408,0"), (wide, narrow), "M3 picture 0 source 0"), (("0,0", "64,0", "64,64"), (tall, A, A), None),
            (("0,0", "64,0", "128,0", "64,64", "128,64"), (tall, A, A, A, A), "M5 picture 0 source 3"),
            (("0,0", "64,0", "64,64", "128,0", "128,64"), (tall, A, A, A, A), None),
            (BESIDE, (A, A), None)):
        checked(cases, corners, sources, line, sizes=(BYTEWISE,))
    checked(cases, BESIDE, (TWICE, TWICE), pictures=2, sizes=(BYTEWISE,))


def far_motion(entry, cycles):
    """Returns two pictures, of which the second takes motion from an entry of a list of long-term pictures with these cycles and low
    bits 0.
    """
    w = Writer(None)
    # the picture header inside, of an inter picture, with the PPS 0 and the count 1, and motion
    for bits, value in ((1, 1), (5, 0b00111), (4, 1), (2, 0b10)):
        w.u(bits, value)
    # a P slice, its two lists, the active entries, and the one whose motion it takes
    w.ue(1)
    w.ue(len(cycles))
    w.u(len(cycles), 0)
    for cycle in cycles:
        w.u(5, 1)
        w.ue(cycle)
    w.ue(0)
    w.u(1, 1)
    w.ue(len(cycles) - 1)
    w.ue(entry)
    w.se(0)
    sets = (SPS, spelled.sps(sps_long_term_ref_pics_flag=1, sps_temporal_mvp_enabled_flag=1)), (PPS, spelled.whole())
    return stream(*(unit(kind, 0, rbsp) for kind, rbsp in sets), bytes.fromhex("0041c4185aa780"), unit(TRAIL, 0, w.closed() + PAYLOAD))


def add_bodies(cases):
    """Adds what slices use besides the sets."""
    cases.about("check merge: LMCS and scaling lists in slices with a picture header inside")
    chroma = Tools(lmcs=1, chroma=1)
    unmapped, mapped = lmcs_source(None, 0, chroma, inside=True), lmcs_source(b"\x51\x80", 3, chroma, inside=True)
    mapped_else = lmcs_source(b"\x52\x80", 0, chroma, inside=True)
    mapped_chroma = lmcs_source(b"\x51\x80", 1, chroma, inside=True, residual=1)
    row = ("0,0", "64,0", "128,0")
    checked(cases, BESIDE, (mapped, unmapped))
    checked(cases, row, (unmapped, mapped, mapped_else), "M9 picture 0 source 2")
    checked(cases, row, (unmapped, mapped, mapped_chroma), "M8 picture 0 source 2 field 613")
    scaled = [scaling_source(body, 5, inside=True) for body in (None, b"\x61\x80", b"\x62\x80")]
    checked(cases, row, scaled, "M9 picture 0 source 2")
    cases.about("check merge: bodies of the adaptive loop filter: four that stay, four others then, and five others")
    sets = "007900030233800000820412003de08300608001 00810000410208984080"

    def bodies(*values):
        return " ".join(f"0089{k:02x}{value:02x}" for k, value in enumerate(values))

    def two_pictures(first, second, last="00019c4f014d4ac05aa780"):
        return given(f"{sets} {bodies(*first)} 0041c4180a785aa780 {bodies(*second)} {last}")

    kept = two_pictures(range(0xB0, 0xB4), range(0xB0, 0xB4))
    changed = two_pictures(range(0xA0, 0xA4), range(0xA4, 0xA8))
    grown = two_pictures(range(0xA0, 0xA4), range(0xA4, 0xA9), "00019c4f414e29585aa780")
    checked(cases, BESIDE, (changed, kept), pictures=2)
    checked(cases, BESIDE, (grown, kept), "M12 picture 1 source 1")
    checked(cases, BESIDE, (grown, grown), pictures=2)
    cases.about("check merge: a second picture that takes motion from the first entry of its list, and from the second one")
    first, second = (given("007900030233800000820412003de0034030400080 00810000410208984080 0041c4185aa780 "
                           f"00019c64e95{entry}05aa780") for entry in ("5c", "4b"))
    checked(cases, BESIDE, (first, first), pictures=2)
    checked(cases, BESIDE, (first, second), "M16 picture 1 source 1")
    cases.about("check merge: long-term entries, whose cycles add up: each is a cycle further, and both are one picture")
    checked(cases, BESIDE, (far_motion(0, (1, 1)), far_motion(1, (1, 1))), "M16 picture 1 source 1")
    checked(cases, BESIDE, (far_motion(0, (1, 0)), far_motion(1, (1, 0))), pictures=2)


def add_sources(cases):
    """Adds sources without pictures, that break a rule, or that can't be read."""
    broken = bytes.fromhex("000001 8079")
    cases.about("check merge: sources without units; another QP; a name with an equals sign, and one with a comma")
    checked(cases, BESIDE, (EMPTY, bytes(2)), pictures=0)
    checked(cases, BESIDE, (B, A))
    for name in ("a=b", "=b,c"):
        cases.named(name, TWICE)
        say_in_pieces(cases, f"check merge 0,0={name}", Expected(out=b"ok pictures 2\n"))
    cases.about("check merge: what comes in an earlier round, or of a lower source, is told")
    checked(cases, ("0,0", "32,0"), (A + broken, A + broken), "M3 picture 0 source 1")
    checked(cases, BESIDE, (A + broken, broken), "F3 source 1 byte 3")
    checked(cases, BESIDE, (A, A + broken), "F3 source 1 byte 52")
    checked(cases, BESIDE, (broken, None), "F3 source 0 byte 3")
    cases.about("check merge: a source that can't be read, a write that fails, and the second read of each source")
    words = f"check merge {cases.placed(('0,0', '64,0', '128,0'), (A, EMPTY, A))}"
    say(cases, words, failed("read fault source 1"), "closed 1")
    say(cases, f"check merge {cases.placed(BESIDE, (A, A))}", failed("write fault"), "fail out 0")
    words = f"check merge {cases.placed(('0,0', '32,0'), (TWICE, TWICE))}"
    say(cases, words, refused("M3 picture 0 source 1"), *SIXTY, "fail all 1")
    words = f"check merge {cases.placed(BESIDE, (TWICE, TWICE))}"
    say(cases, words, failed("read fault source 0"), *SIXTY, "fail all 1")
    cases.about("check merge: 64 files that can't be read, and 65")
    for count, expected in ((64, failed("read fault source 0")), (65, refused("L4"))):
        closed = [f"closed {k}" for k in range(count)]
        say(cases, f"check merge {' '.join([f'0,0={cases.name(EMPTY)}'] * count)}", expected, *closed)
    cases.about("words of merge that aren't understood")
    not_understood(cases, "check merge", "check merge a", "check merge 0,0=a b", "check merge 0,0=", "check merge 0=a", "check merge ,0=a",
                   "check merge 0,=a", "check merge 00,0=a", "check merge 0,+1=a", "check merge 16384,0=a", "check merge 0,0,0=a",
                   "merge check 0,0=a")


def add_written(cases):
    """Adds two sources side by side that are merged, a byte a write."""
    cases.about("merge: a byte a write")
    other_qp = stream(*units(M)[:4], bytes.fromhex("004142605aa780"))
    escaped = bytes.fromhex("0000030180")
    for sources, expected in (((EMPTY, EMPTY), Expected()), ((A, A), Expected(out=M)), ((A, B), Expected(out=other_qp)),
                              ((A, gray(payload=escaped)), Expected(out=stream(*units(M)[:4], b"\0\x41\x58" + escaped))),
                              ((TWICE, A), refused("M14 picture 1 source 1", M))):
        words = f"merge {cases.placed(BESIDE, sources)}"
        for pieces in (WHOLE, BYTEWISE):
            cases.case(words, expected, *pieces, "pieces out 1")
    words = f"merge {cases.placed(BESIDE, (TWICE, TWICE))}"
    cases.case(words, failed("read fault source 1", M), *SIXTY, "pieces out 1", "fail 1 1")
    words = f"merge {cases.placed(BESIDE, (A, A))}"
    for call in (0, 40, 69):
        cases.case(words, failed("write fault", M[:call]), "pieces out 1", f"fail out {call}")


def add_other_words(cases):
    """Adds what the program prints of itself, and arguments that are no command."""
    cases.about("what the program tells of itself; behind `show` it is a file's name")
    version = b"goosequince 0.2.0\n"
    cases.case("--version", Expected(out=version), "pieces out 1")
    say(cases, "--version", failed("write fault", version[:11]), "pieces out 1", "fail out 11")
    cases.named("--help", A)
    cases.case("show --help", Expected(out=GRAY_LINES))
    cases.about("words that are no command")
    not_understood(cases, "", "show", "show a.266 b.266", "Show a.266", "a.266 show", "--help show", "-version")


def add_told(cases):
    add_shown(cases)
    add_ends(cases)
    add_long(cases)
    add_shown_faults(cases)
    add_extracted(cases)
    add_cut(cases)
    add_extracted_faults(cases)
    add_rules(cases)
    add_bytewise(cases)
    add_bodies(cases)
    add_sources(cases)
    add_written(cases)
    add_other_words(cases)
