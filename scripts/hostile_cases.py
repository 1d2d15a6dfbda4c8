"""Cases of hostile input, under each command: numbers at the end of a range and one beyond, the first bytes of two pictures, and files and
sinks that fail. Only what the other cases don't have.
"""
import structure_cases as spelled
from case_lines import Expected, units
from fed_cases import long_picture
from plain_streams import IDR_N_LP, PAYLOAD, PH, PPS, SPS, Header, partition, ph, pps, slice_unit, sps, stream, unit
from play_cases import JOINED, PAIRS
from small_streams import Writer
from told_cases import (BROKEN, BROKEN_LINES, BYTEWISE, GRAY_PPS, GRAY_SETS, GRAY_SPS, TWICE, cut_line, end_rows, far_motion, given,
                        not_understood, picture_line, pps_line, sps_line, told)
from worked_cases import A, BESIDE, EMPTY, EOS_UNIT, I0, M, failed, gray, left, pair_pps, pair_sets, refused, right, wall

# The number of the longest code of ue(v).
MOST = 2**32 - 2


def checked(pictures=1):
    """Returns what a check prints of pictures that break no rule."""
    return Expected(out=b"ok pictures %d\n" % pictures)


def verified(pictures=1):
    return Expected(out=b"yes pictures %d\n" % pictures)


def lines_of(source, *own):
    """Returns what is shown of the first units of a stream. Each may have a line of its own after that of the unit."""
    parts, offset = [], 4
    for nal_unit, line in zip(units(source), own):
        parts.append((offset, len(nal_unit), nal_unit[1] >> 3))
        parts += [line] if line else []
        offset += len(nal_unit) + 4
    return told(*parts)


# What is shown of the sets and of the slice of a picture of 64 by 64 samples.
SETS, ONE = (sps_line(), pps_line()), (sps_line(), pps_line(), picture_line())


def beside(cases, source):
    """Returns the arguments that place a picture, and a source on its right."""
    return cases.placed(BESIDE, (A, source))


def behind(cases, source):
    """Returns the arguments that place two pictures side by side, and after each of them another file: a picture, and a source on its
    right.
    """
    return cases.placed(PAIRS, (A, A, A, source))


def placed_everywhere(cases, words, expected, *settings):
    """Adds files at corners of their own: a merge, its check, and `play`, which writes the same."""
    cases.checked(f"merge {words}", expected, *settings)
    cases.case(f"play {words}", expected, *settings)


def merged_everywhere(cases, corners, sources, *written):
    """Adds sources that are merged to these units, also by `play`."""
    expected = Expected(out=stream(*written))
    cases.merged(corners, sources, expected)
    cases.case(f"play {cases.placed(corners, sources)}", expected)


def refused_everywhere(cases, source, line, lines=None):
    """Adds a source that is refused under each command: as source 1 of a merge, as file 2 of a comparison, and as file 3 that is
    played, of region 1. `lines` are the lines that are shown before, if given.
    """
    name, words = cases.name(source), beside(cases, source)
    if lines is not None:
        cases.case(f"show {name}", refused(line, lines))
    for command in ("extract", "check extract"):
        cases.case(f"{command} 0 {name}", refused(line))
    for command in ("merge", "check merge", "play"):
        cases.case(f"{command} {words}", refused(line.replace("source 0", "source 1")))
    cases.case(f"verify merge {cases.name(M)} {words}", refused(line.replace("source 0", "source 2")))
    cases.case(f"play {behind(cases, source)}", refused(line.replace("source 0", "source 3"), M))


def taken_everywhere(cases, source, lines=None):
    """Adds a source of one picture that is its own extraction, can be merged alone, and is played twice. `lines` are the lines that are
    shown, if given.
    """
    name = cases.name(source)
    if lines is not None:
        cases.case(f"show {name}", Expected(out=lines))
    cases.case(f"extract 0 {name}", Expected(out=source))
    cases.case(f"check extract 0 {name}", checked())
    cases.case(f"check merge 0,0={name}", checked())
    cases.case(f"merge 0,0={name}", Expected(), keep="whole")
    cases.case(f"verify merge whole 0,0={name}", verified())
    cases.case(f"play 0,0={name} 0,0={name}", Expected(), keep="whole")
    cases.case(f"verify merge whole 0,0={cases.name(source + EOS_UNIT + source)}", verified(2))


# Numbers of a stream at the ends of their ranges.


def add_ends(cases):
    """Adds the streams that `show` refuses at an end, under the other commands."""
    for what, rows in end_rows():
        cases.about(f"hostile: {what}")
        for source, _, line in rows:
            if line:
                refused_everywhere(cases, source, line)
            else:
                taken_everywhere(cases, source)
    cases.about("hostile: 1,001 slices; the longest unit and one more; messages of 65,537 bytes; a picture of 2^25 bytes and one")
    refused_everywhere(cases, given("0081000010101020b5003e9640"), "L5 source 0 unit 0", EMPTY)
    one = bytes.fromhex("000001 00a1")
    refused_everywhere(cases, (one + one, (b"\x81", 8_388_607)), "L1 source 0 unit 1")
    messages = b"\0\0\1\0\xb9\x93", (b"\xff", 256), b"\0", (b"\x55", 65_280), b"\x80"
    refused_everywhere(cases, messages, "L10 source 0 unit 0")
    long, _ = long_picture(2**23 - 3)
    cases.case(f"extract 0 {cases.name(long)}", refused("L2 source 0 unit 6"))
    for command in ("check merge", "play"):
        cases.case(f"{command} {beside(cases, long)}", refused("L2 source 1 unit 6"))


def size_rows():
    """Returns heights, and sizes of CTUs and sublayers, past their ends."""
    for numbers, line in (({"sps_pic_height_max_in_luma_samples": 16_392}, "L6 source 0 unit 0"),
                          ({"sps_pic_height_max_in_luma_samples": 0}, "Y source 0 unit 0 field 110 bit 63 OutOfRange"),
                          ({"sps_max_sublayers_minus1": 7}, "Y source 0 unit 0 field 102 bit 8 OutOfRange"),
                          ({"sps_log2_ctu_size_minus5": 3}, "Y source 0 unit 0 field 104 bit 13 OutOfRange")):
        yield stream(unit(SPS, 0, spelled.sps(**numbers))), line


def add_sizes(cases):
    """Adds the largest picture, and larger ones."""
    cases.about("hostile: no height, and one that is too large; seven sublayers and one more; CTUs of 256 samples")
    for source, line in size_rows():
        refused_everywhere(cases, source, line, EMPTY)
    cases.about("hostile: the largest picture, which is merged alone; two that make it up; a frame too wide, and too high")
    largest = gray(width=16_384, height=16_384, ctu=128)
    largest_line = '{"ctu":128,"height":16384,"sps":0,"subpictures":1,"width":16384}'
    lines = lines_of(largest, largest_line, pps_line(), picture_line())
    taken_everywhere(cases, largest, lines)
    alone = (sps(16_384, 16_384, 128, subpics=[(0, 0, 128, 128)]),
             pps(16_384, 16_384, partition=partition(128, [128], [128], 1)), ph(I0), left(I0))
    merged_everywhere(cases, ("0,0",), (largest,), *alone)
    half = gray(width=8_192)
    wide = (sps(16_384, 64, subpics=[(0, 0, 128, 1), (128, 0, 128, 1)]),
            pps(16_384, 64, partition=partition(64, [128, 128], [1], 2, [("ue", 0)])), ph(I0), left(I0), right(I0))
    merged_everywhere(cases, ("0,0", "8192,0"), (half, half), *wide)
    placed_everywhere(cases, cases.placed(("0,0", "8192,0"), (half, gray(width=8_200))), refused("L6 picture 0"))
    placed_everywhere(cases, cases.placed(("0,0", "0,8192"), (gray(height=8_192), gray(height=8_200))), refused("L6 picture 0"))
    add_corners(cases)


def add_corners(cases):
    """Adds corners as far away as arguments can say."""
    cases.about("hostile: 64 regions with the same corner, which is the last one; corners at which a picture just fits in, and one further")
    words = cases.placed(["16383,16383"] * 64, [A] * 64)
    placed_everywhere(cases, words, refused("L6 picture 0"))
    cases.case(f"verify merge {cases.name(M)} {words}", refused("C1 picture 0 source 0"))
    cases.case(f"verify merge {cases.name(wall())} {words}", refused("C2 picture 0 source 1"))
    cases.checked(f"merge {words} 16383,16383={cases.name(A)}", refused("L4"), "fail all 0")
    for corner, line in (("16320,0", "M3"), ("16321,0", "L6"), ("0,16320", "M3"), ("0,16321", "L6")):
        placed_everywhere(cases, cases.placed((corner,), (A,)), refused(f"{line} picture 0" + " source 0" * (line == "M3")))
    cases.about("hostile: 64 regions one below the other to the last row, and behind one of them a file that isn't reached")
    corners = [f"16383,{16320 + k}" for k in range(64)]
    cases.case(f"play {cases.placed([*corners, corners[0]], [A] * 65)}", refused("L6 picture 0"), "closed 64")


def subpictures(width, height, **numbers):
    """Returns sets of a picture of two subpictures, of three CTUs in a row or a column, of which the last one has a slice of its own.
    """
    across = width > height
    rbsp = spelled.sps(width, height, sps_subpic_info_present_flag=1, sps_num_subpics_minus1=1, sps_independent_subpics_flag=1,
                       **{f"sps_subpic_{name}": number for name, number in numbers.items()})
    tiles = spelled.tiled([2, 1], [1], 2) if across else spelled.tiled([1], [2, 1], 2)
    return unit(SPS, 0, rbsp), unit(PPS, 0, tiles)


def add_places(cases):
    """Adds places of subpictures: the last column and row of CTUs, and one beyond; sizes that reach out of the picture."""
    cases.about("hostile: subpictures at the last column and row, and one beyond; of sizes that lead to the border, and over it")
    for width, height, corner, size in ((192, 64, "ctu_top_left_x", "width_minus1"), (64, 192, "ctu_top_left_y", "height_minus1")):
        columns = 2 if width > height else 1
        for place, far in ((2, 1), (3, 2), (2, 3), (3, 3)):
            sets = subpictures(width, height, **{corner: place, size: far})
            own = (sps_line(width, height, 2), f'{{"columns":{columns},"pps":0,"rows":{3 - columns},"slices":2,"sps":0}}')
            if (place, far) == (2, 1):
                whole = stream(*sets, ph(I0), left(I0), right(I0))
                lines = lines_of(whole, *own, "", "", picture_line(slices=2))
                cases.case(f"show {cases.name(whole)}", Expected(out=lines))
            else:
                source = stream(*sets, ph(I0))
                refused_everywhere(cases, source, "S12 source 0 unit 2 layout 3", lines_of(source, *own))


# Numbers that are computed from several fields.


def frame_sps(**numbers):
    """Returns the SPS of two pictures of 64 by 64 samples side by side, with these numbers."""
    return unit(SPS, 0, spelled.sps(128, 64, sps_subpic_info_present_flag=1, sps_num_subpics_minus1=1, sps_independent_subpics_flag=1,
                                    sps_subpic_ctu_top_left_x=1, **numbers))


def deep(bits_more, qp, delta):
    """Returns a picture with a higher bit depth, in one slice."""
    return stream(unit(SPS, 0, spelled.sps(sps_bitdepth_minus8=bits_more)), pps(64, 64, qp=qp), slice_unit(I0, inside=True, qp_delta=delta))


def header_qp(delta):
    """Returns a picture whose PPS has the largest QP, and whose picture header changes it."""
    w = Writer(None)
    for bits, number in ((4, 0b1000), (1, 1), (4, 0)):
        w.u(bits, number)
    w.se(delta)
    tiles = spelled.tiled([1], [1], pps_qp_delta_info_in_ph_flag=1, pps_init_qp_minus26=37)
    return stream(unit(SPS, 0, spelled.sps()), unit(PPS, 0, tiles), unit(PH, 0, w.closed()), b"\0\x41\x20" + PAYLOAD)


def add_qps(cases):
    """Adds the quantization parameter of a slice."""
    cases.about("hostile: the QP of a slice at its ends, and one beyond, at 8, 9 and 10 bits, and as far as codes lead")
    for bits_more in (0, 1, 2):
        least = -6 * bits_more
        for qp in (least, 63):
            source = deep(bits_more, qp, 0)
            taken_everywhere(cases, source, lines_of(source, *ONE))
        far = ((least, 1 - 2**31), (63, 2**31 - 1)) if bits_more == 0 else ()
        for qp, delta in ((least, -1), (least - 1, 0), (63, 1), *far):
            if qp >= -12:
                source = deep(bits_more, qp, delta)
                refused_everywhere(cases, source, "S14 source 0 unit 2", lines_of(source, *SETS))
    cases.about("hostile: the largest QP, which the picture header moves by nothing, by one, and as far as a code leads")
    moved = header_qp(0)
    taken_everywhere(cases, moved, lines_of(moved, *SETS, "", picture_line()))
    for delta in (1, 2**31 - 1):
        source = header_qp(delta)
        refused_everywhere(cases, source, "S14 source 0 unit 3", lines_of(source, *SETS, ""))
    cases.about("hostile: the lowest QP and the largest one side by side")
    for one, other in ((0, 63), (63, 0)):
        slices = left(I0), right(I0, qp_delta=other - one)
        merged_everywhere(cases, BESIDE, (gray(qp=one), gray(qp=other)), *pair_sets(one), ph(I0), *slices)


def cycled(lsb_bits, cycle_bits, lsb, cycle):
    """Returns a picture with these low bits and this cycle of the picture order count, and its header in its slice: its SPS's numbers,
    its header's bits, and the stream.
    """
    numbers = {"sps_log2_max_pic_order_cnt_lsb_minus4": lsb_bits - 4, "sps_poc_msb_cycle_flag": 1,
               "sps_poc_msb_cycle_len_minus1": cycle_bits - 1}
    header = (4, 0b1000), (1, 1), (lsb_bits, lsb), (1, 1), (cycle_bits, cycle)
    inside = Writer(None)
    for bits, number in ((1, 1), *header, (1, 0), (1, 1)):
        inside.u(bits, number)
    source = stream(unit(SPS, 0, spelled.sps(**numbers)), bytes.fromhex(GRAY_PPS), unit(IDR_N_LP, 0, inside.closed()) + PAYLOAD)
    return numbers, header, source


def add_counts(cases):
    """Adds the picture order count."""
    cases.about("hostile: the largest count, of the most low bits and of the fewest, and one more; the most cycles that bits can say")
    for bits in (4, 16):
        cycles = 2**(31 - bits)
        numbers, header, source = cycled(bits, 32 - bits, 2**bits - 1, cycles - 1)
        taken_everywhere(cases, source, lines_of(source, *SETS, picture_line(0, 2**31 - 1)))
        w = Writer(None)
        for code in header:
            w.u(*code)
        merged_everywhere(cases, BESIDE, (source, source), frame_sps(**numbers), pair_pps(), unit(PH, 0, w.closed()), left(I0), right(I0))
        for lsb, cycle in ((0, cycles), (2**bits - 1, 2 * cycles - 1)):
            _, _, source = cycled(bits, 32 - bits, lsb, cycle)
            refused_everywhere(cases, source, "S13 source 0 unit 2", lines_of(source, *SETS))


def add_sums(cases):
    """Adds numbers without a range, as large as codes can be."""
    cases.about("hostile: offsets of the window and DPB sizes as large as codes can say")
    window = MOST, MOST, MOST, MOST
    taken_everywhere(cases, gray(window=window))
    picture = ph(I0), left(I0), right(I0)
    merged_everywhere(cases, BESIDE, (gray(window=(MOST, 5, MOST, MOST)), gray(window=(3, MOST, MOST, MOST))),
                      *pair_sets(window=window), *picture)
    merged_everywhere(cases, BESIDE, (gray(dpb=(MOST, 0, 1)), gray(dpb=(1, MOST, MOST))), *pair_sets(dpb=(MOST, MOST, MOST)), *picture)
    cases.about("hostile: cycles of long-term entries that add up past 2^32; motion from an entry that no list has")
    cycles = 0, MOST, 2
    words = cases.placed(BESIDE, (far_motion(0, cycles), far_motion(2, cycles)))
    cases.case(f"check merge {words}", refused("M16 picture 1 source 1"))
    for entry in (2, MOST):
        source = far_motion(entry, (1, 0))
        cases.case(f"extract 0 {cases.name(source)}", Expected(out=source))
        cases.case(f"check merge {cases.placed(BESIDE, (source, source))}", checked(2))


def add_slots(cases):
    """Adds more PPSs than there are ids, at 10 bits, so that each has a QP of its own."""
    cases.about("hostile: 66 PPSs in turn: the last two take the id 0, one after the other; then the second one, which is still there, "
                "and the first one again")
    deeper = {"sps_bitdepth_minus8": 2}
    source, written = [unit(SPS, 0, spelled.sps(**deeper))], [frame_sps(**deeper)]
    for at, k in enumerate([*range(66), 1, 0]):
        kind, lsb, taken = 0 if at else IDR_N_LP, at % 16, k if k < 64 else 0
        header = Header(kind, taken, lsb)
        source += [pps(64, 64, k % 64, k - 12), slice_unit(Header(kind, k % 64, lsb), inside=True)]
        written += [] if at == 66 else [pair_pps(k - 12, taken)]
        written += [ph(header), left(header), right(header)]
    placed_everywhere(cases, cases.placed(BESIDE, [stream(*source)] * 2), Expected(out=stream(*written)))


def add_numbers(cases):
    """Adds numbers in arguments."""
    cases.about("hostile: the largest and the least numbers of words, and one more; numbers past 2^16, 2^32 and 2^64")
    name = cases.name(A)
    for level in (0, 255):
        cases.case(f"extract --level {level} 0 {name}", Expected(out=gray(level=level)))
        written = stream(*pair_sets(level=level), ph(I0), left(I0), right(I0))
        for command in ("merge", "play"):
            cases.case(f"{command} --level {level} {beside(cases, A)}", Expected(out=written))
    cases.checked(f"extract 999 {name}", refused("E2 picture 0"))
    cases.case(f"extract --tid 6 0 {name}", Expected(out=A))
    not_understood(cases, "extract 65536 a", "extract 4294967296 a", "extract 18446744073709551616 a", "extract --level 4294967296 0 a",
                   "extract --tid 4294967296 0 a", "merge --level 18446744073709551616 0,0=a", "merge 65536,0=a", "merge 0,4294967296=a",
                   "check merge 0,18446744073709551616=a", "verify merge m 4294967296,0=a", "extract -1 a", "merge -1,0=a",
                   "play --level 18446744073709551616 0,0=a", "play 65536,0=a", "play 0,4294967296=a", "play -1,0=a",
                   "play 0,0=a 0,18446744073709551616=a")


# The first bytes of a stream.


def second_cut(line, picture=0, file=1):
    """Returns the line of a merge whose file 1 is cut, or another file of region 1 that begins with this picture. `line` is the line of
    the file alone, if it is refused.
    """
    if not line:
        return f"M1 picture {picture} source 1"
    return f"M14 picture {picture} source 1" if line[0] == "E" else line.replace("source 0", f"source {file}")


def finished_cut(line, count):
    """Returns the result of comparing the cut stream with two pictures."""
    if not line:
        return verified() if count == len(M) else refused("C4 picture 0 source 2 slice 0 part 12 field 0")
    return refused("C5 picture 0 source 0" if line[0] == "E" else line)


def add_cut(cases):
    """Adds the first bytes of two pictures side by side, for each number of bytes."""
    cases.about("hostile: a picture that is cut anywhere: checked, as source 1 of a merge, as a finished stream, and as the second file of "
                "region 1")
    for count in range(len(M) + 1):
        source, line = M[:count], cut_line(count)
        name = cases.name(source)
        cases.case(f"check extract 0 {name}", refused(line) if line else checked())
        for command in ("merge", "check merge", "play"):
            cases.case(f"{command} {beside(cases, source)}", refused(second_cut(line)))
        cases.case(f"play {behind(cases, source)}", refused(second_cut(line, 1, 3), M))
        cases.case(f"verify merge {name} {cases.placed(BESIDE, (A, A))}", finished_cut(line, count))


# Files and sinks that fail.


def add_failing(cases):
    """Adds a merge of two files of two pictures each: the first one is read in one piece and the second one in pieces of 60 bytes."""
    cases.about("hostile: a merge of a file in one piece and one in pieces of 60 bytes: each read, and some writes, of a byte, failing")
    placed, whole, pieces = cases.placed(BESIDE, (TWICE, TWICE)), M + M, "pieces 1 60"
    words = f"merge {placed}"
    placed_everywhere(cases, placed, Expected(out=whole), pieces)
    for source, call, out in ((0, 0, EMPTY), (0, 1, M), (1, 0, EMPTY), (1, 1, M), (1, 2, M)):
        fault = failed(f"read fault source {source}", out), pieces, f"fail {source} {call}"
        if source == 0:
            cases.checked(words, *fault)
        cases.case(f"play {placed}", *fault)
        cases.case(f"verify merge {cases.name(whole)} {placed}", failed(f"read fault source {source + 1}"), "pieces 2 60",
                   f"fail {source + 1} {call}")
    cases.case(f"play {placed}", failed("read fault source 1"), pieces, "closed 1")
    for call in (0, 1, 69, 70, 71, 139):
        cases.case(words, failed("write fault", whole[:call]), pieces, "pieces out 1", f"fail out {call}")
    for command in ("merge", "play"):
        cases.case(f"{command} {placed}", Expected(out=whole), pieces, "pieces out 1", f"fail out {len(whole)}")
    cases.about("hostile: check merge, a byte a read: reads at the ends of the pictures")
    for source in (0, 1):
        for call in (0, 51, 52, 98):
            cases.case(f"check {words}", failed(f"read fault source {source}"), *BYTEWISE, f"fail {source} {call}")
    cases.about("hostile: the checks: each write, of a byte, failing once")
    line = checked(2).out
    for call in range(len(line)):
        for check in (f"extract 0 {cases.name(TWICE)}", words):
            cases.case(f"check {check}", failed("write fault", line[:call]), "pieces out 1", f"fail out {call}")
    cases.about("hostile: a file that can't be read")
    for command in ("show", "extract 0", "check extract 0"):
        cases.case(f"{command} {cases.name(A)}", failed("read fault source 0"), "closed 0")
    for command in ("merge", "play"):
        cases.case(f"{command} 0,0={cases.name(A)}", failed("read fault source 0"), "closed 0")


def add_silent(cases):
    """Adds cases in which the first write to `err` fails: nothing else changes."""
    cases.about("hostile: the first write to `err` fails: a rule, words, a read and a write")
    name, words = cases.name(A), cases.placed(BESIDE, (A, A))
    broken = A + BROKEN
    for line, expected, *settings in (
            (f"show {cases.name(BROKEN)}", refused("", BROKEN_LINES)),
            (f"extract 0 {cases.name(broken)}", refused("", A)),
            (f"check extract 0 {cases.name(broken)}", refused("")),
            (f"extract 1 {name}", refused("")),
            (f"merge {beside(cases, broken)}", refused("", M)),
            (f"check merge {beside(cases, broken)}", refused("")),
            (f"play {behind(cases, broken)}", refused("", JOINED)),
            (f"play {cases.placed(BESIDE, (TWICE, A))}", refused("", M)),
            (f"verify merge {cases.name(M)} {cases.placed(('0,0', '128,0'), (A, A))}", refused("")),
            (f"merge {cases.placed(['0,0'] * 65, [A] * 65)}", refused(""), "fail all 0"),
            ("extract 1000 a", Expected(2, "")),
            (f"show {name}", failed(""), "closed 0"),
            (f"extract 0 {cases.name(TWICE)}", failed("", A), "pieces all 60", "fail 0 1"),
            (f"play {cases.placed(['0,0'] * 257, [A] * 257)}", refused(""), "fail all 0"),
            (f"merge {words}", failed(""), "closed 1"),
            (f"play {words}", failed(""), "closed 1"),
            (f"check merge {words}", failed(""), "closed 0"),
            (f"verify merge {cases.name(M)} {words}", failed(""), "closed 2"),
            (f"show {name}", failed("", GRAY_SETS), "fail out 1"),
            (f"extract 0 {name}", failed(""), "fail out 0"),
            (f"check extract 0 {name}", failed(""), "fail out 0"),
            (f"merge {words}", failed("", M[:69]), "pieces out 1", "fail out 69"),
            (f"play {words}", failed("", M[:69]), "pieces out 1", "fail out 69"),
            (f"check merge {words}", failed(""), "fail out 0"),
            (f"verify merge {cases.name(M)} {words}", failed(""), "fail out 0")):
        cases.case(line, expected, *settings, "fail err 0")


def add_hostile(cases):
    add_ends(cases)
    add_sizes(cases)
    add_places(cases)
    add_qps(cases)
    add_counts(cases)
    add_sums(cases)
    add_slots(cases)
    add_numbers(cases)
    add_cut(cases)
    add_failing(cases)
    add_silent(cases)
