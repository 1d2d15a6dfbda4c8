"""Worked cases of merges: small streams and their merges, written field by field by the syntax tables and the rules for what is written."""
from case_lines import Expected
from plain_streams import (ALF, CRA, EOB, EOS, LMCS, PAYLOAD, SCALING, SEI, TRAIL, Header, Tools, aps, partition, ph, pps, slice_unit, sps,
                           stream, unit)

BESIDE = ("0,0", "64,0")
EMPTY = b""


def refused(line, out=b""):
    return Expected(1, line, out)


def failed(line, out=b""):
    return Expected(3, line, out)


# One picture of 64 by 64 samples, with its header inside its slice.


def gray(qp=26, width=64, height=64, ctu=64, payload=PAYLOAD, **numbers):
    """Returns a picture in one slice."""
    return stream(sps(width, height, ctu, **numbers), pps(width, height, qp=qp), slice_unit(Header(), inside=True, payload=payload))


A, B = gray(), gray(qp=22)


def pair_sets(qp=26, number=0, tid=0, tools=Tools(), **numbers):
    """Returns the sets of two pictures of 64 by 64 samples side by side."""
    return pair_sps(tools, **numbers), pair_pps(qp, number, tid)


def pair_sps(tools=Tools(), **numbers):
    return sps(128, 64, tools=tools, subpics=[(0, 0, 1, 1), (1, 0, 1, 1)], **numbers)


def pair_pps(qp=26, number=0, tid=0):
    return pps(128, 64, number, qp, tid, partition(64, [1, 1], [1], 2, [("ue", 0)]))


def left(header, **fields):
    return slice_unit(header, subpic=(0, 1), **fields)


def right(header, **fields):
    return slice_unit(header, subpic=(1, 1), **fields)


I0 = Header()
M = stream(*pair_sets(), ph(I0), left(I0), right(I0))
EOS_UNIT = stream(b"\0\xa9")


def add_pairs(cases):
    """Adds two pictures side by side."""
    cases.about("two sources side by side: nothing; the same picture; another QP; slice data with an emulation prevention byte")
    cases.merged(BESIDE, (EMPTY, EMPTY), Expected())
    cases.merged(BESIDE, (A, A), Expected(out=M))
    assert len(M) == 70
    cases.checked(f"merge {cases.placed(BESIDE, (A, A))}", Expected(out=M), "pieces all 1", "pieces out 1")
    other_qp = stream(*pair_sets(), ph(I0), left(I0), bytes.fromhex("004142605aa780"))
    assert len(other_qp) == 71
    cases.merged(BESIDE, (A, B), Expected(out=other_qp))
    escaped = bytes.fromhex("0000030180")
    cases.merged(BESIDE, (A, gray(payload=escaped)), Expected(out=stream(*pair_sets(), ph(I0), left(I0), b"\0\x41\x58" + escaped)))
    cases.about("numbers of the SPS: the larger level, and a level that is asked for; DPB sizes; the window")
    two = Expected(out=stream(*pair_sets(level=67), ph(I0), left(I0), right(I0)))
    cases.merged(BESIDE, (A, gray(level=67)), two)
    asked = stream(*pair_sets(level=93), ph(I0), left(I0), right(I0))
    cases.merged(BESIDE, (A, gray(level=67)), Expected(out=asked), "--level 93 ")
    for one, other, both in [((1, 0, 2), (3, 1, 5), (3, 1, 5)), ((4, 1, 2), (3, 3, 0), (4, 3, 0)), ((1, 0, 0), (0, 0, 7), (1, 0, 0))]:
        written = stream(*pair_sets(dpb=both), ph(I0), left(I0), right(I0))
        cases.merged(BESIDE, (gray(dpb=one), gray(dpb=other)), Expected(out=written))
    written = stream(*pair_sets(window=(2, 3, 1, 0)), ph(I0), left(I0), right(I0))
    cases.merged(BESIDE, (gray(window=(2, 9, 1, 0)), gray(window=(7, 3, 2, 5))), Expected(out=written))
    written = stream(*pair_sets(), ph(I0), left(I0), right(I0))
    cases.merged(BESIDE, (gray(window=(0, 9, 1, 0)), gray(window=(7, 0, 0, 5))), Expected(out=written))


def add_regions(cases):
    """Adds places of sources."""
    cases.about("corners off the CTUs, gaps, overlaps, and regions in another order")
    cases.merged(("0,0", "32,0"), (A, A), refused("M3 picture 0 source 1"))
    cases.merged(("0,0", "128,0"), (A, A), refused("M3 picture 0 source 0"))
    cases.merged(("0,0", "0,0"), (A, A), refused("M3 picture 0 source 1"))
    cases.merged(("64,0", "0,0"), (A, A), refused("M4 picture 0 source 0"))
    cases.about("widths that are no multiple of the CTU size")
    narrow, wide = gray(width=1280, height=128, ctu=128), gray(width=1288, height=128, ctu=128)
    sets = (sps(2568, 128, 128, subpics=[(0, 0, 10, 1), (10, 0, 11, 1)]),
            pps(2568, 128, partition=partition(128, [10, 11], [1], 2, [("ue", 0)])))
    cases.merged(("0,0", "1280,0"), (narrow, wide), Expected(out=stream(*sets, ph(I0), left(I0), right(I0))))
    cases.merged(("0,0", "1288,0"), (wide, narrow), refused("M3 picture 0 source 1"))
    cases.merged(("0,0", "1408,0"), (wide, narrow), refused("M3 picture 0 source 0"))
    add_four(cases)
    cases.about("a tile line of a source through another")
    tiles = partition(64, [1, 1], [1, 1], 1)
    tiled = stream(sps(128, 128), pps(128, 128, partition=tiles), slice_unit(I0, inside=True))
    cases.merged(("0,0", "128,0"), (tiled, gray(width=128, height=128)), refused("M5 picture 0 source 1"))
    add_dropped_lines(cases)


def add_four(cases):
    """Adds four regions of 10 by 5 CTUs."""
    cases.about("four sources of 1280 by 640 samples at two QPs")
    low, high = (gray(qp=qp, width=1280, height=640, ctu=128) for qp in (22, 37))
    subpics = [(0, 0, 10, 5), (10, 0, 10, 5), (0, 5, 10, 5), (10, 5, 10, 5)]
    # The first tile is neither in the last column nor in the last row, the second one is in the last column, the third one in the last
    # row.
    listed = [("u", 1),
              ("ue", 0), ("ue", 0), ("ue", 0), ("se", 1),
              ("ue", 0), ("ue", 0), ("se", 1),
              ("ue", 0), ("ue", 0), ("se", 1)]
    sets = (sps(2560, 1280, 128, subpics=subpics, id_length=2),
            pps(2560, 1280, qp=22, partition=partition(128, [10, 10], [5, 5], 4, listed)))
    slices = [slice_unit(I0, subpic=(k, 2), qp_delta=delta) for k, delta in enumerate((0, 15, 15, 0))]
    corners = ("0,0", "1280,0", "0,640", "1280,640")
    cases.merged(corners, (low, high, high, low), Expected(out=stream(*sets, ph(I0), *slices)))


def add_dropped_lines(cases):
    """Adds regions that are rows of one tile."""
    cases.about("two sources below one another beside a tall one: the line between them is dropped")
    tall, low = gray(height=128), A
    listed = [("u", 1), ("ue", 0), ("ue", 0), ("se", 1), ("ue", 1), ("ue", 0)]
    sets = (sps(128, 128, subpics=[(0, 0, 1, 2), (1, 0, 1, 1), (1, 1, 1, 1)], id_length=2),
            pps(128, 128, partition=partition(64, [1, 1], [2], 3, listed)))
    slices = [slice_unit(I0, subpic=(k, 2)) for k in range(3)]
    cases.merged(("0,0", "64,0", "64,64"), (tall, low, low), Expected(out=stream(*sets, ph(I0), *slices)))
    corners = ["0,0", "64,0", "128,0", "64,64", "128,64"]
    cases.merged(corners, (tall, low, low, low, low), refused("M5 picture 0 source 3"))
    corners[2:4] = corners[3], corners[2]
    listed = [("u", 1), ("ue", 0), ("ue", 0), ("se", 1), ("ue", 0), ("ue", 1), ("ue", 0), ("se", 1), ("ue", 1), ("ue", 0)]
    subpics = [(0, 0, 1, 2), (1, 0, 1, 1), (1, 1, 1, 1), (2, 0, 1, 1), (2, 1, 1, 1)]
    sets = (sps(192, 128, subpics=subpics, id_length=3), pps(192, 128, partition=partition(64, [1, 1, 1], [2], 5, listed)))
    slices = [slice_unit(I0, subpic=(k, 3)) for k in range(5)]
    cases.merged(corners, (tall, low, low, low, low), Expected(out=stream(*sets, ph(I0), *slices)))


# Adaptation parameter sets.

WITH_ALF, WITH_LMCS, WITH_SCALING = Tools(alf=1), Tools(lmcs=1), Tools(scaling=1)


def add_filters(cases):
    """Adds four bodies of the adaptive loop filter for a slice, over several rounds."""
    a, b = [bytes([0xA0 + k]) for k in range(9)], [b"\0\0\1" + bytes([0xB0 + k]) for k in range(4)]
    cases.about("four bodies of the adaptive loop filter for each slice: which ids they take over several pictures; which are sent again")
    for tid in (0, 1):
        add_filter_rounds(cases, a, b, tid)
    cases.about("nine bodies of the adaptive loop filter")
    ids = [4, 5, 6, 7, 0]
    next_picture = [aps(ALF, number, body) for number, body in zip(ids, a[4:])] + [alf_slice(TRAIL, 1, ids)]
    one, other = filter_source(a, b)
    cases.merged(BESIDE, (stream(*one, *next_picture), stream(*other, alf_slice(TRAIL, 1, range(4)))),
                 refused("M12 picture 1 source 1", stream(*filters_written(a, b))))


def alf_slice(kind, lsb, ids, tid=0, **fields):
    """Returns a slice of a source that names bodies of the adaptive loop filter."""
    return slice_unit(Header(kind, lsb=lsb), WITH_ALF, tid, inside=True, alf=list(ids), **fields)


def filter_source(a, b):
    """Returns the units of the first pictures of both sources. The bodies have other ids than in the merge."""
    ids = (7, 2, 5, 0)
    one = [sps(64, 64, tools=WITH_ALF), pps(64, 64), *(aps(ALF, k, body) for k, body in zip(ids, a)), alf_slice(8, 0, ids)]
    other = [sps(64, 64, tools=WITH_ALF), pps(64, 64), *(aps(ALF, k, body) for k, body in enumerate(b)), alf_slice(8, 0, range(4))]
    return one, other


def filters_written(a, b):
    """Returns the units that are written for these."""
    sets = [aps(ALF, k, body) for k, body in enumerate(a[:4] + b)]
    return [*pair_sets(tools=WITH_ALF), *sets, *alf_pair(I0, range(4), range(4, 8))]


def alf_pair(header, one, other, tid=0):
    """Returns the header and the slices of a merged picture."""
    slices = [side(header, tools=WITH_ALF, tid=tid, alf=list(ids)) for side, ids in ((left, one), (right, other))]
    return [ph(header, WITH_ALF, tid), *slices]


def add_filter_rounds(cases, a, b, tid):
    """Adds a merge in which source 0 has four other bodies in a picture with this TemporalId, and again in one with the TemporalId 0.
    """
    one, other = filter_source(a, b)
    ids = (1, 3, 4, 6)
    one += [*(aps(ALF, k, body, tid) for k, body in zip(ids, a[4:8])), alf_slice(TRAIL, 1, ids, tid), alf_slice(TRAIL, 2, ids)]
    other += [alf_slice(TRAIL, 1, range(4), tid), alf_slice(TRAIL, 2, (3, 2, 1, 0))]
    new = [aps(ALF, k, body, tid) for k, body in enumerate(a[4:8])]
    again = [aps(ALF, k, body) for k, body in enumerate(a[4:8])] if tid else []
    written = [*filters_written(a, b),
               *new, *alf_pair(Header(TRAIL, lsb=1), range(4), range(4, 8), tid),
               *again, *alf_pair(Header(TRAIL, lsb=2), range(4), (7, 6, 5, 4))]
    cases.merged(BESIDE, (stream(*one), stream(*other)), Expected(out=stream(*written)))


def lmcs_source(body, number, tools=WITH_LMCS, inside=False, used=1, residual=0, **fields):
    """Returns a picture whose header switches LMCS on, if there is a body."""
    header = Header(lmcs=None if body is None else number, residual=residual)
    sets = [sps(64, 64, tools=tools), pps(64, 64)] + ([] if body is None else [aps(LMCS, number, body)])
    return stream(*sets, *picture(header, tools, inside, lmcs=used, **fields))


def scaling_source(body, number, inside=False, used=1, **fields):
    """Returns a picture whose header switches scaling lists on, if there is a body."""
    header = Header(scaling=None if body is None else number)
    sets = [sps(64, 64, tools=WITH_SCALING), pps(64, 64)] + ([] if body is None else [aps(SCALING, number, body)])
    return stream(*sets, *picture(header, WITH_SCALING, inside, scaling=used, **fields))


def picture(header, tools, inside, **fields):
    """Returns the header and the slice of a source."""
    units = [slice_unit(header, tools, inside=inside, **fields)]
    return units if inside else [ph(header, tools)] + units


def add_shared_sets(cases):
    """Adds LMCS and scaling lists."""
    body, other, scale, scale_other = b"\x4c\x80", b"\x4d\x80", b"\x5c\x80", b"\x5d\x80"
    off, chroma = lmcs_source(None, 0), Tools(lmcs=1, chroma=1)
    header = Header(lmcs=0)
    sets = [*pair_sets(tools=WITH_LMCS), aps(LMCS, 0, body), ph(header, WITH_LMCS)]

    def lmcs_pair(one, two):
        return Expected(out=stream(*sets, left(header, tools=WITH_LMCS, lmcs=one), right(header, tools=WITH_LMCS, lmcs=two)))

    cases.about("LMCS with the header inside the slice: alone, and with other ids in two sources")
    alone = [sps(64, 64, tools=WITH_LMCS, subpics=[(0, 0, 1, 1)]), pps(64, 64, partition=partition(64, [1], [1], 1)), aps(LMCS, 0, body),
             ph(header, WITH_LMCS), left(header, tools=WITH_LMCS, lmcs=1)]
    cases.merged(("0,0",), (lmcs_source(body, 3, inside=True),), Expected(out=stream(*alone)))
    cases.merged(BESIDE, (lmcs_source(body, 3, inside=True), lmcs_source(body, 1, inside=True)), lmcs_pair(1, 1))
    cases.about("LMCS beside sources without, used and not used by a slice")
    for used in (0, 1):
        cases.merged(BESIDE, (lmcs_source(body, 3, used=used), off), lmcs_pair(used, 0))
        cases.merged(BESIDE, (off, lmcs_source(body, 3, used=used)), lmcs_pair(0, used))
    cases.merged(BESIDE, (lmcs_source(body, 3, inside=True), off), lmcs_pair(1, 0))
    row = ("0,0", "64,0", "128,0")
    cases.merged(row, (off, lmcs_source(body, 3), lmcs_source(other, 3)), refused("M9 picture 0 source 2"))
    cases.about("chroma residual scaling that differs between the sources with LMCS, in 4:2:0")
    colour = [lmcs_source(None, 0, chroma), lmcs_source(body, 3, chroma), lmcs_source(body, 3, chroma, residual=1)]
    cases.merged(row, colour, refused("M8 picture 0 source 2 field 613"))
    scaled = Header(lmcs=0, residual=1)
    written = [*pair_sets(tools=chroma), aps(LMCS, 0, body), ph(scaled, chroma), left(scaled, tools=chroma, lmcs=0),
               right(scaled, tools=chroma, lmcs=1)]
    cases.merged(BESIDE, (colour[0], colour[2]), Expected(out=stream(*written)))
    cases.about("scaling lists beside sources without")
    header = Header(scaling=0)
    sets = [*pair_sets(tools=WITH_SCALING), aps(SCALING, 0, scale), ph(header, WITH_SCALING)]
    flat = scaling_source(None, 0)
    for used in (0, 1):
        slices = left(header, tools=WITH_SCALING, scaling=0), right(header, tools=WITH_SCALING, scaling=used)
        cases.merged(BESIDE, (flat, scaling_source(scale, 7, used=used)), Expected(out=stream(*sets, *slices)))
    slices = left(header, tools=WITH_SCALING, scaling=1), right(header, tools=WITH_SCALING, scaling=0)
    cases.merged(BESIDE, (scaling_source(scale, 5, inside=True), flat), Expected(out=stream(*sets, *slices)))
    cases.merged(row, (flat, scaling_source(scale, 7), scaling_source(scale_other, 7)), refused("M9 picture 0 source 2"))


# Several pictures.


def add_rounds(cases):
    """Adds what is sent, and when, over several pictures."""
    add_parameter_sets(cases)
    add_messages(cases)
    cases.about("an end of sequence in both sources, or in one alone; an end of the stream, which counts as one; a CRA picture")
    for end in (EOS, EOB):
        source = A + stream(unit(end, 0, b"")) + A
        cases.merged(BESIDE, (source, source), Expected(out=M + EOS_UNIT + M))
        cases.merged(BESIDE, (source, A + EOS_UNIT + A), Expected(out=M + EOS_UNIT + M))
    cases.merged(BESIDE, (A + EOS_UNIT + A, A + A), refused("M6 picture 1 source 1", M))
    cases.merged(BESIDE, (A + A, A + EOS_UNIT + A), refused("M6 picture 1 source 1", M))
    cra = Header(CRA, lsb=5)
    random_access = stream(*pair_sets(), ph(cra), left(cra), right(cra))
    for end in (EMPTY, EOS_UNIT):
        source = A + end + stream(slice_unit(cra, inside=True))
        cases.merged(BESIDE, (source, source), Expected(out=M + end + random_access))
    cases.about("a source that ends before another")
    cases.merged(BESIDE, (A + A, A), refused("M14 picture 1 source 1", M))
    cases.merged(BESIDE, (A, A + A), refused("M14 picture 1 source 0", M))
    cases.merged(BESIDE, (EMPTY, A), refused("M14 picture 0 source 0"))


def add_parameter_sets(cases):
    """Adds a PPS that gets another id."""
    def pictures(*numbers, tids=(0, 0, 0, 0)):
        slices = zip(numbers, (8, TRAIL, TRAIL, TRAIL), range(4), tids)
        return [slice_unit(Header(kind, number, lsb), tid=tid, inside=True) for number, kind, lsb, tid in slices]

    def merged(number, lsb, qp, tid=0):
        header = Header(TRAIL if lsb else 8, number, lsb)
        return ph(header, tid=tid), left(header, tid=tid), right(header, tid=tid, qp_delta=23 - qp)

    cases.about("two PPSs of source 0 in turn: the second one takes the id 1, and neither is sent again")
    first, *later = pictures(0, 5, 0, 5)
    other = [sps(64, 64), pps(64, 64, 3, 23), *pictures(3, 3, 3, 3)]
    source = stream(sps(64, 64), pps(64, 64), first, pps(64, 64, 5, 28), *later)
    written = stream(*pair_sets(), *merged(0, 0, 26), pair_pps(28, 1), *merged(1, 1, 28), *merged(0, 2, 26), *merged(1, 3, 28))
    cases.merged(BESIDE, (source, stream(*other)), Expected(out=written))
    cases.about("the second PPS comes with a picture of TemporalId 1: it is sent again, with another id, with one of TemporalId 0")
    tids = (0, 1, 0, 0)
    first, *later = pictures(0, 5, 5, 5, tids=tids)
    other = [sps(64, 64), pps(64, 64, 3, 23), *pictures(3, 3, 3, 3, tids=tids)]
    source = stream(sps(64, 64), pps(64, 64), first, pps(64, 64, 5, 28), *later)
    written = stream(*pair_sets(), *merged(0, 0, 26), pair_pps(28, 1, 1), *merged(1, 1, 28, 1), pair_pps(28, 2), *merged(2, 2, 28),
                     *merged(2, 3, 28))
    cases.merged(BESIDE, (source, stream(*other)), Expected(out=written))


def add_messages(cases):
    """Adds SEI messages."""
    cases.about("messages: those of three types of source 0 are carried, in front of the picture header, and no others")
    light, transfer, hidden = "90 04 03 e8 01 90", "93 01 10", "05 01 2a"

    def sei(*messages, tid=0):
        return bytes([0, SEI << 3 | tid + 1]) + bytes.fromhex("".join(messages) + "80")

    sets, slices = pair_sets(), (ph(I0), left(I0), right(I0))
    told = Expected(out=stream(*sets, sei(light), *slices))
    cases.merged(BESIDE, (stream(sei(light)) + A, stream(sei(transfer)) + A), told)
    cases.merged(BESIDE, (stream(sei(light)) + A, A), told)
    cases.merged(BESIDE, (A, stream(sei(light)) + A), Expected(out=M))
    cases.merged(BESIDE, (stream(sei(hidden)) + A, A), Expected(out=M))
    both = Expected(out=stream(*sets, sei(light, transfer), *slices))
    cases.merged(BESIDE, (stream(sei(light), sei(hidden, transfer)) + A, A), both)
    later = Header(TRAIL, lsb=1)
    source = [A + stream(*front, slice_unit(later, tid=1, inside=True)) for front in ((sei(light, tid=1),), ())]
    written = M + stream(sei(light, tid=1), ph(later, tid=1), left(later, tid=1), right(later, tid=1))
    cases.merged(BESIDE, source, Expected(out=written))


def add_limits(cases):
    """Adds limits of what is to be written."""
    cases.about("65 files, of which none is read; and 64")
    many = " ".join(f"{64 * (k % 8)},{64 * (k // 8)}={cases.name(A)}" for k in range(65))
    cases.checked(f"merge {many}", refused("L4"), "fail all 0")
    cases.checked(f"merge {many.rsplit(' ', 1)[0]}", Expected(out=wall()))
    cases.about("a unit that grows past the limit by its longer header, and one that just doesn't")
    left_part = stream(sps(64, 64), pps(64, 64), ph(I0))
    for length in (2**23 - 1, 2**23):
        other = stream(sps(64, 64), pps(64, 64, qp=22), ph(I0)) + b"\0\0\0\1\0\x41\x30", (b"\x5a", length - 3)
        words = cases.placed(BESIDE, (left_part + stream(slice_unit(I0)), other))
        if length == 2**23:
            cases.checked(f"merge {words}", refused("L1 picture 0"))
        else:
            cases.case(f"check merge {words}", Expected(out=b"ok pictures 1\n"))
            cases.case(f"merge {words}", Expected(), keep="large")
            cases.case("show large", Expected(out=shown([22, 12, 4, 6, 2**23])))
    cases.about("a picture whose units just don't pass the limit, and one whose units do")
    full = left_part + b"\0\0\0\1\0\x41\x30", (b"\x5a", 2**23 - 3)
    less = left_part + b"\0\0\0\1\0\x41\x30", (b"\x5a", 2**23 - 7)
    corners = [f"{64 * k},0" for k in range(4)]
    cases.case(f"check merge {cases.placed(corners, [less, full, full, full])}", Expected(out=b"ok pictures 1\n"))
    cases.checked(f"merge {cases.placed(corners, [full] * 4)}", refused("L2 picture 0"))
    add_many_slices(cases)


def wall():
    """Returns 64 pictures in eight rows and columns."""
    listed = [("u", 1)]
    for k in range(63):
        listed += [("ue", 0)] * ((k % 8 < 7) + (k < 56)) + [("se", 1)]
    sets = (sps(512, 512, subpics=[(k % 8, k // 8, 1, 1) for k in range(64)], id_length=6),
            pps(512, 512, partition=partition(64, [1] * 8, [1] * 8, 64, listed)))
    return stream(*sets, ph(I0), *(slice_unit(I0, subpic=(k, 6)) for k in range(64)))


def shown(lengths):
    """Returns what is shown of two pictures side by side whose units have these lengths."""
    sets = {0: '{"ctu":64,"height":64,"sps":0,"subpictures":2,"width":128}', 1: '{"columns":2,"pps":0,"rows":1,"slices":2,"sps":0}'}
    lines, offset = [], 4
    for k, (length, kind) in enumerate(zip(lengths, (15, 16, 19, 8, 8))):
        lines += [f'{{"bytes":{length},"offset":{offset},"tid":0,"type":{kind}}}', *sets.get(k, "").split()]
        offset += length + 4
    lines.append('{"clvss":true,"picture":0,"poc":0,"slices":2,"subpictures":2}')
    return "".join(line + "\n" for line in lines).encode()


def add_many_slices(cases):
    """Adds pictures of a column of CTUs, each of which is a slice."""
    cases.about("1,000 slices in a picture, and one more")

    def column(count):
        # Each of the tile's slices is one row: the height of the first one is explicit, and applies to those after it.
        tile = partition(32, [1], [count], count, [("u", 0), ("ue", 1), ("ue", 0)])
        bits = (count - 1).bit_length()
        slices = (slice_unit(I0, address=(k, bits), payload=b"\x80") for k in range(count))
        return stream(sps(32, 32 * count, 32), pps(32, 32 * count, partition=tile), ph(I0), *slices)

    most, more = column(500), column(512)
    cases.case(f"check merge {cases.placed(('0,0', '32,0'), (most, most))}", Expected(out=b"ok pictures 1\n"))
    cases.checked(f"merge {cases.placed(('0,0', '32,0'), (more, more))}", refused("L5 picture 0"))


# What is written of two sources of two pictures each, a byte a read, if a given read fails: the first picture is written once its end
# was read before the failing read.
SEEN = [EMPTY] * 52 + [M] * 47


def add_reads(cases, words, source, outs, *settings):
    """Adds a case for each read of a source, which fails; `outs` has what is written then."""
    for call, out in enumerate(outs):
        cases.case(words, failed(f"read fault source {source}", out), *settings, f"fail {source} {call}")


def add_writes(cases, words, whole, *settings):
    """Adds a case for each write of a byte, which fails; and one for the call after the last, which isn't made."""
    for call in range(len(whole)):
        cases.case(words, failed("write fault", whole[:call]), *settings, "pieces out 1", f"fail out {call}")
    cases.case(words, Expected(out=whole), *settings, "pieces out 1", f"fail out {len(whole)}")


def add_faults(cases):
    """Adds each read and each write failing once."""
    cases.about("two pictures of each source: each read fails once, and a source can't be read at all")
    twice, whole = A + A, M + M
    assert len(whole) == 140
    words = f"merge {cases.placed(BESIDE, (twice, twice))}"
    cases.checked(words, Expected(out=whole))
    for source in (0, 1):
        fault = f"read fault source {source}"
        cases.checked(words, failed(fault), f"closed {source}")
        cases.checked(words, failed(fault), f"fail {source} 0")
        cases.checked(words, failed(fault, M), f"fail {source} 1")
        for call, out in enumerate([EMPTY, M, M]):
            cases.checked(words, failed(fault, out), "pieces all 60", f"fail {source} {call}")
            cases.checked(words, failed(fault, out), f"pieces {source} 60", f"fail {source} {call}")
        cases.checked(words, Expected(out=whole), "pieces all 60", f"fail {source} 3")
    cases.about("a byte a read: the picture is written whose end is seen in the bytes before the read that fails")
    for source in (0, 1):
        add_reads(cases, words, source, SEEN, "pieces all 1")
    cases.about("a byte a write: each write fails once")
    add_writes(cases, words, whole)
    cases.case(words, failed("write fault"), "fail out 0")
    cases.case(f"check {words}", failed("write fault"), "fail out 0")
    cases.about("a write to `err` fails: nothing else changes")
    words = f"merge {cases.placed(BESIDE, (twice, A))}"
    line = "M14 picture 1 source 1"
    cases.checked(words, refused("", M), "fail err 0")
    for call in range(len(line) + 1):
        cases.checked(words, refused(line[:call] + "~" if call else "", M), "pieces err 1", f"fail err {call}")
    cases.about("words that aren't understood: nothing is read")
    for words in ("merge", "merge a", "merge 0,0=", "merge --level 0,0=a", "merge --level 256 0,0=a", "merge 0,0=a --level 51",
                  "merge 0,0=a 16384,0=b", "merge 00,0=a", "check merge --level 51 0,0=a"):
        cases.case(words, Expected(2, "words not understood"))


def add_worked(cases):
    add_pairs(cases)
    add_regions(cases)
    add_filters(cases)
    add_shared_sets(cases)
    add_rounds(cases)
    add_limits(cases)
    add_faults(cases)
