"""Lines of crates/vx_vectors on sets and headers that no vector of a model has, with their expected output, worked by hand from the format.

They have sets of small streams, the ends of ranges, the largest sets, kept items, rewritten sets, and headers under sets that let their
numbers reach these ends. The items and the meaning of an accepted set come from read_sets.py. Sets that are given by their fields are
written in the order in which it reads them.
"""
from read_sets import NUMBERS, Pps, Reader, Sps
from small_streams import Writer, escaped

SAME = " | written same"


# Sets by their fields.


class Speller(Reader):
    """Writes bits in the order in which they are read. A field has the number given for its name, the numbers of a list one after
    another, or 0. `places` has where each field first begins.
    """

    def begin(self, numbers):
        self.numbers = {name: list(number) if isinstance(number, (list, tuple)) else number for name, number in numbers.items()}
        self.writer, self.items, self.places = Writer(None), [], {}

    def next(self, name):
        self.places.setdefault(name, len(self.writer.bits))
        number = self.numbers.get(name, 0)
        return number.pop(0) if isinstance(number, list) else number

    def u(self, n, name):
        return self.item(name, self.writer.u(n, self.next(name)))

    def ue(self, name):
        return self.item(name, self.writer.ue(self.next(name)))

    def se(self, name):
        return self.item(name, self.writer.se(self.next(name)))

    def zeros(self):
        self.writer.zeros()

    def end(self, extension):
        self.flag(extension)
        assert not any(number for number in self.numbers.values() if isinstance(number, list)) and set(self.numbers) <= set(NUMBERS)
        self.rbsp = self.writer.closed()


class SpelledSps(Speller, Sps):
    """An SPS given by its fields."""


class SpelledPps(Speller, Pps):
    """A PPS given by its fields."""


SPS_SIZE = ("sps_pic_width_max_in_luma_samples", "sps_pic_height_max_in_luma_samples")
PPS_SIZE = ("pps_pic_width_in_luma_samples", "pps_pic_height_in_luma_samples")
GRAY = {"sps_log2_ctu_size_minus5": 1, "sps_ptl_dpb_hrd_params_present_flag": 1, "general_profile_idc": 1, "general_level_idc": 51,
        "ptl_frame_only_constraint_flag": 1, "sps_rpl1_same_as_rpl0_flag": 1, "sps_six_minus_max_num_merge_cand": 5}


def sps(width=64, height=64, **numbers):
    """Returns the RBSP of an SPS without tools, except for these numbers."""
    return SpelledSps(GRAY | dict(zip(SPS_SIZE, (width, height))) | numbers).rbsp


def pps(width=64, height=64, **numbers):
    """Returns the RBSP of a PPS."""
    return SpelledPps(dict(zip(PPS_SIZE, (width, height))) | numbers).rbsp


def whole(width=64, height=64, **numbers):
    """Returns a PPS without partition."""
    return pps(width, height, pps_no_pic_partition_flag=1, **numbers)


def tiled(columns, rows, slices=1, **numbers):
    """Returns a PPS with tile columns and rows of these sizes, in CTUs of 64, and `slices` slices."""
    return pps(64 * sum(columns), 64 * sum(rows), pps_log2_ctu_size_minus5=1, pps_num_exp_tile_columns_minus1=len(columns) - 1,
               pps_num_exp_tile_rows_minus1=len(rows) - 1, pps_tile_column_width_minus1=[size - 1 for size in columns],
               pps_tile_row_height_minus1=[size - 1 for size in rows], pps_rect_slice_flag=1, pps_num_slices_in_pic_minus1=slices - 1, **numbers)


def unit(kind, rbsp):
    """Returns a line with a NAL unit of a type."""
    return f"unit {(bytes([0, kind << 3 | 1]) + escaped(rbsp)).hex()}"


# Expected output.


def outside(field, bit):
    """Returns the refusal of a field that begins at a bit and has a value out of its range."""
    return f"refused Y field={field} bit={bit} cause=OutOfRange"


def unread(field, bit, cause):
    return f"refused Y field={field} bit={bit} cause={cause}"


def profile(code):
    return f"refused P code={code}"


def limit(code):
    return f"refused L code={code}"


def set_lines(kind, rows):
    """Returns lines of sets in hexadecimal, each with its refusal. A set without one is accepted and written again."""
    for digits, answer in rows:
        if answer is None:
            found = {"sps": Sps, "pps": Pps}[kind](bytes.fromhex(digits))
            answer = f"ok{found.text()} | {found.meaning()}{SAME}"
        yield f"{kind} {digits}", answer


# Sequence parameter sets.

# The SPS of a stream of one CTU, of two of its pictures side by side, and of the right one extracted again.
ONE_SPS = "00030233800000820412003de00300608001"
BESIDE_SPS = "00030233800000408105534007bc00600c100020"
RIGHT_SPS = "00030233800000820417f001ef001803040008"

SPS_ROWS = [
    (ONE_SPS, None),
    (BESIDE_SPS, None),
    (RIGHT_SPS, None),
    # a VPS that is referred to; no profile, tier and level; other profiles, tools and formats
    ("01030233800000820412003de00300608001", profile(2)),
    ("00130233800000820412003db07c0600c1000040", profile(4)),
    ("00020233800000820412003de00300608001", profile(3)),
    ("00030233800060410209001ef0018030400080", profile(7)),
    ("000302338000008204108003de003006080010", profile(5)),
    ("00030233800000820412003de00300608801", profile(6)),
    ("00030233800000820412003de00300608021", profile(8)),
    ("00030233800000820412003de00300608003", profile(9)),
    # widths and heights
    ("00030233800020412003de003006080010", outside(109, 50)),
    ("000302338000000080120412003de00300608001", limit(6)),
    ("000302338000008234800f7800c018200040", outside(110, 63)),
    ("0003023380000000800200040012003de00300608001", None),
    ("0003023380000003ffa0412003de003006080010", outside(109, 50)),
    # numbers of subpictures
    ("0003023380000082041401f4f4007bc00600c10002", limit(9)),
    ("0003023380000082041400000007fffffff8", limit(9)),
    ("0003023380000082041400000002", unread(117, 78, "LongCode")),
    # bits of picture order counts
    ("00030233800000820412683de00300608001", outside(133, 81)),
    ("0003023380000082041204381ef0018030400080", None),
    ("00030233800000820412043a1ef0018030400080", outside(135, 86)),
    ("0003023380000082041264201ef0018030400080", None),
    ("0003023380000082041264221ef0018030400080", outside(135, 86)),
    # points of a chroma QP table
    ("000b0233800000820412003db0604bfffffffffffffffffffffffffffffffffffffc0600c1000040", None),
    ("000b0233800000820412003db0604cffffffffffffffffffffffffffffffffffffff018030400010", outside(167, 107)),
    # structures of reference picture lists, and entries of one
    ("00030233800000820412003de002041ffffffffffffffff006080010", None),
    ("00030233800000820412003de002042ffffffffffffffff803040008", limit(8)),
    ("00030233800000820412003de00283d55555555555555003040008", None),
    ("00030233800000820412003de00283f55555555555555400c10002", limit(7)),
    # bits of an id, and bytes of usability information
    ("00030233800000820416114007bc00600c100020", outside(126, 79)),
    ("00030233800000820412003de00300608004008020", outside(228, 142)),
]

# 1,000 subpictures of one CTU each, 40 side by side, with their indices as ids.
THOUSAND_SPS = "000102338000000a0200c85007d1800a003de00600c10002"


def write_codes(w, *runs):
    """Writes codes, as bits and a number, `times` times each. A code without bits stands for zeros up to a byte boundary."""
    for times, *codes in runs:
        for bits, number in codes * times:
            w.u(bits, number) if bits else w.zeros()


# The longest code of ue(v).
LONG = (32, 1), (31, 0x7fffffff)
ONE_BIT = (1, 1)


def longest_sps():
    """Returns the longest SPS: all constraints and sub-profiles, 512 x 512 CTUs, 1,000 subpictures and ids, three chroma QP tables, 64
    structures of 29 entries for each list, all tools, 64 CPBs for each of seven sublayers, and 1,024 bytes of usability information.
    """
    w = Writer(None)
    write_codes(
        w,
        (1, (4, 15), (4, 0), (3, 6), (2, 1), (2, 0), ONE_BIT),
        (1, (7, 127), ONE_BIT, (8, 255), ONE_BIT, ONE_BIT, ONE_BIT),
        (71, ONE_BIT), (1, (8, 255)), (255, ONE_BIT), (1, (0, 0)), (6, ONE_BIT), (1, (0, 0)), (7, (8, 255)), (255, (32, 0xffffffff)),
        (1, ONE_BIT, ONE_BIT, (1, 0)),
        (2, (29, 16385)), (1, ONE_BIT), (4, *LONG),
        (1, ONE_BIT, (19, 1000), (1, 0), (1, 0)),
        (1, (9, 0), (9, 0), ONE_BIT, ONE_BIT),
        (998, (9, 1), (9, 2), (9, 3), (9, 4), (1, 0), ONE_BIT),
        (1, (9, 1), (9, 2), (1, 0), ONE_BIT),
        (1, (9, 16), ONE_BIT, ONE_BIT), (1000, (16, 65535)))
    write_codes(
        w,
        (1, (3, 3), ONE_BIT, ONE_BIT, (4, 12), ONE_BIT, (9, 16)),
        (2, (2, 3), (24, 0xffffff)),
        (1, ONE_BIT), (22, *LONG), (1, ONE_BIT), (4, *LONG), (1, ONE_BIT), (8, *LONG), (1, ONE_BIT), (1, *LONG), (6, ONE_BIT), (1, (1, 0)),
        (1, *LONG), (1, (13, 75)), (151, *LONG), (1, (13, 75)), (151, *LONG), (1, (13, 75)), (150, *LONG),
        (1, (8, 255), (1, 0)))
    for _ in range(2):
        write_codes(w, (1, (13, 65)))
        for _ in range(64):
            write_codes(w, (1, (9, 30), (1, 0)), (29, ONE_BIT, (31, 32768), ONE_BIT))
    write_codes(
        w,
        (1, (11, 0x7ff), (5, 4), (2, 3)), (1, *LONG), (1, (7, 0x7f)), (2, *LONG), (1, (6, 0x3f), (1, 0)), (1, *LONG), (1, ONE_BIT),
        (1, *LONG), (1, ONE_BIT, (2, 3)), (9, *LONG), (1, (4, 15), (1, 0), ONE_BIT), (2, (32, 0xffffffff)),
        (1, (4, 15), (8, 255), (12, 0xfff), (11, 32), ONE_BIT))
    for _ in range(7):
        write_codes(w, (1, (1, 0), ONE_BIT, *LONG), (64, *LONG, *LONG, *LONG, *LONG, ONE_BIT))
    write_codes(w, (1, ONE_BIT, ONE_BIT, (21, 1024), (0, 0)), (1024, (8, 255)), (1, (1, 0)))
    return w.closed()


def sps_ends():
    """Returns numbers at their ends, and one beyond."""
    size = dict(zip(SPS_SIZE, (64, 64)))
    for name, number in (("sps_max_sublayers_minus1", 7), ("sps_log2_ctu_size_minus5", 3)):
        found = SpelledSps(GRAY | size | {name: number})
        yield found.rbsp.hex(), outside(NUMBERS[name], found.places[name])
    yield sps(64, 16392).hex(), limit(6)
    yield sps(sps_subpic_info_present_flag=1, sps_subpic_id_len_minus1=15).hex(), None


def pps_ends():
    """Returns the longest id, and as many ids as there may be, whose bits end before their length."""
    mapped = {"pps_subpic_id_mapping_present_flag": 1}
    yield whole(**mapped, pps_subpic_id_len_minus1=15, pps_subpic_id=65535).hex(), None
    found = SpelledPps(dict(zip(PPS_SIZE, (64, 64))) | mapped | {"pps_num_subpics_minus1": 999, "pps_log2_ctu_size_minus5": 1})
    place = found.places["pps_subpic_id_len_minus1"]
    bits = "".join(f"{byte:08b}" for byte in found.rbsp)[:place]
    yield f"{int(bits, 2) << -place % 8:0{-(-place // 8) * 2}x}", unread(415, place, "Short")


def number_lines():
    """Returns lines on the numbers of the SPS with 1,000 subpictures, and of the longest one."""
    thousand, longest = Sps(bytes.fromhex(THOUSAND_SPS)), Sps(longest_sps())
    assert thousand.ids == list(range(1000)) and thousand.rects == [(i % 40, i // 40, 1, 1) for i in range(1000)]
    assert (len(longest.items), longest.width, longest.height, longest.ctu, longest.extra) == (22933, 16384, 16384, 32, [24, 24])
    assert (len(longest.rects), longest.rects[999], longest.ids[999]) == (1000, (1, 2, 511, 510), 65535)
    assert (longest.treated[999], longest.filtered[999]) == (0, 1) and [len(structures) for structures in longest.lists] == [64, 64]
    for digits, found in ((THOUSAND_SPS, thousand), (longest_sps().hex(), longest)):
        yield f"sps-numbers {digits}", found.numbers() + SAME


# Picture parameter sets.

# Those of the three SPSs above.
ONE_PPS, BESIDE_PPS, RIGHT_PPS = "0000410208984080", "0000204082057a530801", "00004102081f584008"

# The fields that picture headers and slices read, of a set without tools. Fields that are in picture headers are included though
# absent.
KEPT = "kept 402=0 410=0 411=0 433=0 434=0 434=0 435=0 436=0 437=0 438=0 440=0 441=0 452=0 455=0 462=0 463=0 465=0 467=0 468=0 469=0"

PPS_ROWS = [
    # four sources of 10 times 5 CTUs
    ("00000280400a020921428a544f5ad1840080", None),
    # two sources side by side, the left one with one slice and the right one with a slice for each tile
    ("00000804020205221124f4b2584008", None),
    # a tile of several slices in the middle, the last of them lower, and one at the end, the last of them higher
    ("00001010030082b53931da64d1840080", None),
    # all slices of a tile of one height
    ("0000101006020b4632461002", None),
    # tile rows of one CTU, in which no slice can be cut
    ("000010100c082f4caa610020", None),
    # the largest numbers that are in range, and the smallest initial QP
    ("ffc00040010002000883c780129c9bffc2", None),
    ("0002448980134080", None),
    # a picture too wide, and too high; 1,001 subpictures, and ids of 17 bits; CTUs of 256
    ("000000400964", limit(6)),
    ("0000410002004b20", limit(6)),
    ("0000410208401f4b20", limit(9)),
    ("0000410208c22c80", outside(415, 42)),
    ("00004102083640", outside(417, 42)),
    # as many columns as there are CTUs, and rows; 1,001 slices
    ("0000101010209b20", outside(418, 50)),
    ("000010101020a990", outside(419, 51)),
    ("000010101020b5003e9640", limit(5)),
    # a step past the last tile, and before the first one; a slice wider than the tiles, and higher
    ("0000080402020b544e2190", outside(431, 71)),
    ("0000080402020b544ea564", outside(431, 75)),
    ("0000080402020b544b64", outside(427, 69)),
    ("0000080402020b544db2", outside(428, 70)),
    # more explicit slices than there are, one after those that fill the tile, and one that leaves too many after it
    ("0000101006020b463159", outside(429, 69)),
    ("0000101006020b46333590", outside(430, 77)),
    ("0000101006020b4632b2", outside(430, 72)),
    # a list that goes on past the last tile
    ("000010100c082f4c9232", outside(432, 72)),
    # 15 active entries and more; motion that wraps around; an initial QP too low, and too high; seven offsets of the chroma QP
    ("0000410208810640", outside(434, 43)),
    ("000041020898b2", profile(13)),
    ("000041020898013d90", outside(439, 49)),
    ("000041020898013190", outside(439, 49)),
    ("0000410208985c9d90", outside(448, 57)),
]


def longest_pps():
    """Returns the longest slice list: 1,000 slices in 440 tiles of 25 times 20 CTUs of 32. The first 280 tiles have slices of 7, 7 and
    6 rows.
    """
    w = Writer(None)
    w.u(11, 0)
    w.ue(16000)
    w.ue(14080)
    w.u(7, 0)
    for number in (0, 0, 24, 19):
        w.ue(number)
    w.u(3, 0b010)
    w.ue(999)
    w.u(1, 1)
    for tile in range(439):
        for _ in range((tile % 20 != 19) + (tile // 20 != 21)):
            w.ue(0)
        for number in (1, 6) if tile < 280 else (0,):
            w.ue(number)
        w.se(1)
    w.u(2, 0)
    w.ue(0)
    w.ue(0)
    w.u(4, 0)
    w.se(0)
    w.u(10, 0)
    return w.closed()


def longest_rects():
    """Returns its slices."""
    for tile in range(440):
        for y, height in ((0, 7), (7, 7), (14, 6)) if tile < 280 else ((0, 20),):
            yield tile % 20 * 25, tile // 20 * 20 + y, 25, height


def each_tile():
    """Returns a PPS with columns of 4, 3, 3 and 2 CTUs, of which two are explicit, and two rows of 5, of which one is: eight tiles, and
    each is a slice.
    """
    return pps(12 * 64, 10 * 64, pps_log2_ctu_size_minus5=1, pps_num_exp_tile_columns_minus1=1, pps_tile_column_width_minus1=[3, 2],
               pps_tile_row_height_minus1=[4], pps_rect_slice_flag=1, pps_num_slices_in_pic_minus1=7)


def pps_lines():
    """Returns lines on sets that are read and written, or refused, and on kept items."""
    yield from set_lines("pps", [*PPS_ROWS, *pps_ends()])
    for digits in (ONE_PPS, BESIDE_PPS):
        yield f"pps-kept {digits}", KEPT
    longest, tiles = Pps(longest_pps()), Pps(each_tile())
    assert longest.slices == list(longest_rects()) and len(longest.slices) == 1000
    assert (len(longest.columns), len(longest.rows)) == (21, 23)
    assert (tiles.columns, tiles.rows) == ([0, 4, 7, 10, 12], [0, 5, 10])
    assert tiles.slices == [(x, y, w, 5) for y in (0, 5) for x, w in ((0, 4), (4, 3), (7, 3), (10, 2))]
    yield from set_lines("pps", [(longest_pps().hex(), None), (each_tile().hex(), None)])


# Rewritten sets: a line has the set, and those that say what it has to become.

# With a window, sub-profiles, and DPB parameters of each sublayer; and the set that is written for a part of its pictures.
WINDOW_SPS = "00211202c00002000000020000000280820874a980f4af40824022553cf630655da004"
WINDOW_SENT = "00211202c0000080820874a980257a04120112a9e7b1832aed0020"
# Three subpictures with their ids in the PPSs, timing and HRD parameters; and the set that is written for one of them.
IDS_SPS = "000104034000c041020d49b98dcec094a7b91181235eebe26e02638a28c522880000000e9445a6171be0ba6284"
IDS_SENT = "000104034000c08408352773b02529ee446048d7baf89b8098e28a3148a200000003a5116984417080"

# A PPS with tools, of a picture of 64 times 64 that is partitioned: weights, the deblocking filter's offsets, and all that picture
# headers can have. The same as that of a region with the id of its subpicture, and as that of two side by side.
TOOLS, TOOLS_TAKEN_OUT, TOOLS_BESIDE = "04804102091f6f826d4fea", "190041020962025f6f826d4fea", "1900204082457e5df055a9e940"
# The PPS of a picture of one CTU as that of a region of 128 times 64, with the id of its subpicture.
WHOLE = "14c020408231012c2040"

IDS_IN_PPS = {"sps_subpic_info_present_flag": 1, "sps_subpic_id_len_minus1": 7, "sps_subpic_id_mapping_explicitly_signalled_flag": 1}


def thousand_sps():
    """Returns the SPS for 1,000 pictures of one CTU, 250 side by side."""
    corners = [(i % 250, i // 250) for i in range(1000)]
    return sps(250 * 64, 4 * 64, sps_subpic_info_present_flag=1, sps_num_subpics_minus1=999, sps_independent_subpics_flag=1,
               sps_subpic_ctu_top_left_x=[x for x, _ in corners[1:]], sps_subpic_ctu_top_left_y=[y for _, y in corners[1:]],
               sps_subpic_id_len_minus1=9)


def sps_rewritten():
    """Returns lines on SPSs for regions and frames, with the set that is written."""
    for source, sent in [
        (ONE_SPS, BESIDE_SPS), (BESIDE_SPS, RIGHT_SPS), (WINDOW_SPS, WINDOW_SENT), (IDS_SPS, IDS_SENT), (ONE_SPS, thousand_sps().hex()),
    ]:
        yield f"sps-like {source} {sent}", f"reshaped {sent}"


def pps_rewritten():
    """Returns lines on PPSs for regions and frames, with the set that is written. It has the bytes of the set that says what it has to
    become, if that has the source's tools and makes all its tile sizes explicit.
    """
    pair, part = sps(128).hex(), sps(128, **IDS_IN_PPS).hex()
    assert part != pair and sps().hex() == ONE_SPS
    for kind, source, under, sent in [
        ("frame", ONE_PPS, pair, BESIDE_PPS),
        ("frame", TOOLS, pair, TOOLS_BESIDE),
        ("region", BESIDE_PPS, ONE_SPS, RIGHT_PPS),
        ("region", TOOLS, sps(**IDS_IN_PPS).hex(), TOOLS_TAKEN_OUT),
        # for a source that isn't partitioned nothing is required of tiles and slices
        ("region", ONE_PPS, part, WHOLE),
    ]:
        yield f"pps-{kind} {source} {under} {sent}", f"reshaped {sent}"
    yield from slices_rewritten()


def slices_rewritten():
    """Returns lines on slice lists and tile sizes of frames, which are read back."""
    width, height = "pps_slice_width_in_tiles_minus1", "pps_slice_height_in_tiles_minus1"
    count, rows, delta = "pps_num_exp_slices_in_tile", "pps_exp_slice_height_in_ctus_minus1", "pps_tile_idx_delta_val"
    listed = {"pps_tile_idx_delta_present_flag": 1}
    # four sources of 10 times 5 CTUs of 128
    four = PPS_ROWS[0][0]
    frames = [(sps(2560, 1280, sps_log2_ctu_size_minus5=2), four, four, [(width, 0), (height, 0), (count, 0), (delta, 1), (height, 0),
                                                                         (count, 0), (delta, 1), (width, 0), (count, 0), (delta, 1)])]
    # two tile rows each: one slice on the left, a slice a tile on the right
    sides = tiled([2, 2], [2, 2], 3, **listed | {height: [1, 0], delta: [1, 2]}).hex()
    frames.append((sps(256, 256), sides, sides, [(width, 0), (height, 1), (delta, 1), (height, 0), (count, 0), (delta, 2)]))
    # tiles of several slices in the middle and as the last one: the last slice is lower than the one before it, higher, and equal
    cut = tiled([3], [2, 5, 4, 4], 7, **listed | {count: [0, 1, 2, 1], rows: [2, 0, 2, 1], delta: 1}).hex()
    frames.append((sps(192, 960), cut, cut, [(height, 0), (count, 0), (delta, 1), (height, 0), (count, 1), (rows, 2), (delta, 1), (height, 0),
                                             (count, 2), (rows, 0), (rows, 2), (delta, 1), (count, 1), (rows, 1)]))
    # all sizes are explicit
    told = tiled([4, 3, 3, 2], [5, 5], 8, **listed | {delta: 1}).hex()
    column = "pps_tile_column_width_minus1"
    frames.append((sps(768, 640), each_tile().hex(), told, [(column, 3), (column, 2), (column, 2), (column, 1)]))
    for under, like, sent, items in frames:
        yield f"pps-frame {ONE_PPS} {under.hex()} {like}", f"reshaped {sent}"
        [(line, answer)] = set_lines("pps", [(sent, None)])
        assert "".join(f" {NUMBERS[name]}={number}" for name, number in items) in answer
        yield line, answer


# The sets of a merge of two sources, of which the first has its PPS with the id 2, and those of that source; and those of another
# merge.
SCALED = ("5003fedfa1090d4c1fe6f7fa6e006002000000000000000203204138012037c93ea4d73adc94c4d60002000213ccada0d2c6d440", "0941902091f51e020368")
SCALED_FRAME = ("0003fedf80000320307d5437002406f927d49ae75b92989ac0004000427995b41a58c0d440", "00019018246b4948f0101340")
MAPPED = ("50cb0559c074235e020301f613ffe1c01510208eca15f17fc170108b2008bff8328c4600010000bfa464400040002f74000022547a8d500a9008",
          "0140151020f407720f503944802031a0")
MAPPED_FRAME = ("00cb05ffc00000c01510123e4aa819d942be2afe0b8084590045ffc194623000080005fd2322000200017ba0000112a3d46a80548040",
                "00001510122068d4941ea0728900406034")


def headers_rewritten():
    """Returns lines on picture headers for frames, alone or inside a slice header, with what is written."""
    for kind, own, frame, header, sent in [
        # without tools, with the id 5
        ("inside", (ONE_SPS, ONE_PPS), (BESIDE_SPS, BESIDE_PPS), "c4185aa780", "8304"),
        # scaling lists with another id, and then none
        ("header", SCALED, SCALED_FRAME, "fb04c3c0", "fc120f"),
        ("inside", SCALED, SCALED_FRAME, "a62500307c50142c1b64a503", "512802"),
        # LMCS and scaling lists with other ids
        ("header", MAPPED, MAPPED_FRAME, "8800033580", "8800022180"),
    ]:
        yield f"{kind}-like {' '.join((*own, *frame, header, sent))}", f"reshaped {sent}"


# Headers.

IDR_N_LP, SPS, PPS, PH = 8, 15, 16, 19


def stream_lines(number, sps_rbsp, pps_rbsp, header=None):
    """Returns the lines of a stream with these sets, and a picture header that is given by its RBSP and its items."""
    yield f"stream {number}", f"stream {number}"
    yield unit(SPS, sps_rbsp), f"set ok{Sps(sps_rbsp).text()}{SAME}"
    yield unit(PPS, pps_rbsp), f"set ok{Pps(pps_rbsp).text()}{SAME}"
    if header:
        yield unit(PH, header[0]), f"header {header[1]}{SAME}"


ONE_SETS = bytes.fromhex(ONE_SPS), bytes.fromhex(ONE_PPS)
LISTS_IN_PH = {"pps_rpl_info_in_ph_flag": 1}
DEBLOCKED = {"pps_deblocking_filter_control_present_flag": 1, "pps_deblocking_filter_override_enabled_flag": 1, "pps_dbf_info_in_ph_flag": 1}
EXTRA_BITS = {"sps_poc_msb_cycle_flag": 1, "sps_poc_msb_cycle_len_minus1": 1, "sps_num_extra_ph_bytes": 1,
              "sps_extra_ph_bit_present_flag": [1] + [0] * 7}



def coded(*pairs):
    """Returns codes, each given by a number of bits, or None for ue(v), and a number; and the alignment."""
    w = Writer(None)
    for bits, number in pairs:
        w.ue(number) if bits is None else w.u(bits, number)
    return w.closed().hex()


# The number of the longest code of ue(v).
MOST = 2**32 - 2
TWO_LISTED = (4, 0b0011), (1, 1), (4, 0), (None, 2), (2, 0b10), (2, 0b10), (None, 0), (1, 1)

# Sets, and picture headers with their items and the bit after them, or with their refusal.
HEADER_ROWS = [
    (*ONE_SETS, [
        # a flag absent: ph_intra_slice_allowed_flag is 0, and an inter slice has ph_mvd_l1_zero_flag
        ("2800", "600=0 601=0 603=1 604=0 605=0 606=0 638=0 | lists=0,0 end=10"),
        # the largest id of a PPS, and one more
        ("004000", "600=0 601=0 603=0 605=63 606=0 | lists=0,0 end=20"),
        ("0041", outside(605, 3)),
        ("0000000000", unread(605, 3, "LongCode")),
        ("88", unread(606, 5, "Short")),
        ("-", unread(600, 0, "Short")),
        # recovery as far away as a code can express
        (coded((4, 0b1010), (1, 1), (4, 0), (None, MOST)), f"600=1 601=0 602=1 603=0 605=0 606=0 607={MOST} | lists=0,0 end=72"),
    ]),
    # the deblocking filter is off
    (sps(), tiled([1], [1], **DEBLOCKED), [
        ("8860", "600=1 601=0 602=0 603=0 605=0 606=0 646=1 647=1 | lists=0,0 end=11"),
    ]),
    # it can't be off: the PPS says so, and 647 is absent
    (sps(), tiled([1], [1], **DEBLOCKED, pps_deblocking_filter_disabled_flag=1), [
        ("887800", "600=1 601=0 602=0 603=0 605=0 606=0 646=1 648=0 649=0 | lists=0,0 end=12"),
    ]),
    # two entries in list 0 and none in list 1: the collocated picture is one of two
    (sps(sps_temporal_mvp_enabled_flag=1), tiled([1], [1], **LISTS_IN_PH), [
        ("383ad0", "600=0 601=0 603=1 604=1 605=0 606=0 301=2 304=0 305=0 304=0 305=0 301=0 634=1 636=1 | lists=2,0 end=21"),
        # an entry that the list doesn't have: there is no range
        (coded(*TWO_LISTED, (None, MOST)),
         f"600=0 601=0 603=1 604=1 605=0 606=0 301=2 304=0 305=0 304=0 305=0 301=0 634=1 636={MOST} | lists=2,0 end=81"),
    ]),
    # as many weights as entries, and one more
    (sps(sps_weighted_pred_flag=1), tiled([1], [1], **LISTS_IN_PH, pps_weighted_pred_flag=1, pps_wp_info_in_ph_flag=1), [
        ("382b40", "600=0 601=0 603=1 604=1 605=0 606=0 301=1 304=0 305=0 301=0 321=0 323=1 324=0 | lists=1,0 end=20"),
        ("382b60", outside(323, 16)),
    ]),
    # an extra bit, and the cycle of the high bits
    (sps(**EXTRA_BITS), whole(), [
        ("886c", "600=1 601=0 602=0 603=0 605=0 606=0 608=1 609=1 610=1 | lists=0,0 end=13"),
    ]),
    # the largest cycle
    (sps(sps_poc_msb_cycle_flag=1, sps_poc_msb_cycle_len_minus1=27), whole(), [
        (coded((4, 0b1000), (1, 1), (4, 15), (1, 1), (28, 2**28 - 1)),
         "600=1 601=0 602=0 603=0 605=0 606=15 609=1 610=268435455 | lists=0,0 end=38"),
    ]),
    # two pictures side by side
    (bytes.fromhex(BESIDE_SPS), bytes.fromhex(BESIDE_PPS), [
        ("8840", "600=1 601=0 602=0 603=0 605=0 606=0 | lists=0,0 end=9"),
    ]),
]


def extended(length):
    """Returns a picture header with `length` bytes of extension."""
    w = Writer(None)
    w.u(9, 0b100010000)
    w.ue(length)
    for _ in range(length):
        w.u(8, 0xA5)
    return w.closed()


def header_lines(number):
    """Returns lines on picture headers."""
    for sps_rbsp, pps_rbsp, rows in HEADER_ROWS:
        yield from stream_lines(number, sps_rbsp, pps_rbsp)
        for digits, answer in rows:
            yield f"header {digits}", answer if answer.startswith("refused") else f"header {answer}"
        number += 1
    yield unit(PH, b"\x88\x40"), f"header 600=1 601=0 602=0 603=0 605=0 606=0{SAME}"
    yield from stream_lines(number, sps(), whole(pps_picture_header_extension_present_flag=1))
    yield unit(PH, extended(256)), f"header 600=1 601=0 602=0 603=0 605=0 606=0 654=256{' 655=165' * 256}{SAME}"
    yield unit(PH, extended(257)), outside(654, 9)


def trail_header(inter=0, deltas=()):
    """Returns a picture header of type 0 with lists, whose list 0 has entries of these deltas: its RBSP, and its items."""
    w = Writer(None)
    w.u(2, 0)
    w.u(1 + inter, 3 * inter)
    w.ue(0)
    w.u(4, 0)
    w.ue(len(deltas))
    for delta in deltas:
        w.ue(delta)
        w.u(1, 0)
    w.ue(0)
    items = f"600=0 601=0 603={inter}{' 604=1' * inter} 605=0 606=0 301={len(deltas)}"
    return w.closed(), items + "".join(f" 304={delta} 305=0" for delta in deltas) + " 301=0"


# The subpicture's id has seven bits: with the flag of a picture header a slice header begins with a byte 00.
ID = {"sps_subpic_info_present_flag": 1, "sps_subpic_id_len_minus1": 6}
INTER, TWO_ENTRIES = trail_header(1), trail_header(1, (0, 1))
ALONE = tiled([1], [1], **LISTS_IN_PH)
# A tile of three slices of one row.
SEVERAL = tiled([1], [3], 3, **LISTS_IN_PH, pps_num_exp_slices_in_tile=1)


def codes(*pairs):
    """Returns the bytes after the first one: codes, and the alignment."""
    return "00" + coded(*pairs)


QP = (None, 0)

# Sets and a picture header, and slice headers: the type of the unit, the address, and the items, or the refusal.
SLICE_ROWS = [
    # the last slice, and one more
    (sps(64, 192, **ID), SEVERAL, trail_header(), [
        (0, codes((2, 2), QP), 2, "702=2 713=0"),
        (0, codes((2, 3), QP), None, outside(702, 8)),
    ]),
    # a type
    (sps(**ID), ALONE, INTER, [
        (0, codes((None, 2), QP), 0, "704=2 713=0"),
        (0, codes((None, 3), QP), None, outside(704, 8)),
    ]),
    # 15 active entries, and one more
    (sps(**ID), ALONE, TWO_ENTRIES, [
        (0, codes((None, 1), (1, 1), (None, 14), QP), 0, "704=1 708=1 709=14 713=0"),
        (0, codes((None, 1), (1, 1), (None, 15), QP), None, outside(709, 12)),
    ]),
    # an extension of 256 bytes, and of one more
    (sps(**ID), tiled([1], [1], **LISTS_IN_PH, pps_slice_header_extension_present_flag=1), trail_header(), [
        (0, codes(QP, (None, 256), *[(8, 0)] * 256), 0, "713=0 731=256" + " 732=0" * 256),
        (0, codes(QP, (None, 257), *[(8, 0)] * 257), None, outside(731, 9)),
    ]),
    # an entry point of 32 bits, and of one more
    (sps(128, **ID, sps_entry_point_offsets_present_flag=1), tiled([1, 1], [1], **LISTS_IN_PH), trail_header(), [
        (0, codes(QP, (None, 31), (32, 7)), 0, "713=0 733=31 734=7"),
        (0, codes(QP, (None, 32), (32, 7)), None, outside(733, 9)),
    ]),
    # the types of units with a flag on the pictures before, and without
    (sps(**ID), ALONE, trail_header(), [
        (10, codes((1, 1), QP), 0, "705=1 713=0"),
        (11, codes(QP), 0, "713=0"),
        # each cause; in the last row the QP ends with the last byte
        (0, "00", None, unread(713, 8, "Short")),
        (0, "000000000000", None, unread(713, 8, "LongCode")),
        (0, "00ff", None, unread(735, 9, "BadAlignment")),
        (8, "0088", None, unread(735, 16, "Short")),
    ]),
    # an absent type is I, and no list has active entries; list 0 of a P slice has one, and so one flag of weights
    (sps(**ID), ALONE, trail_header(0, (0, 1)), [
        (0, "00c0", 0, "713=0"),
    ]),
    (sps(**ID, sps_weighted_pred_flag=1), tiled([1], [1], **LISTS_IN_PH, pps_weighted_pred_flag=1), TWO_ENTRIES, [
        (0, "005d80", 0, "704=1 708=1 709=0 321=0 324=0 713=0"),
    ]),
]

# A picture header inside a slice header, under the sets of a stream of one CTU: how many bytes both take, or the refusal.
INSIDE_ROWS = [
    ("c4185aa780", 2),
    # another PPS, 63: its id takes 13 bits
    ("c01001805a", 4),
    # five flags, and the first zeros of ph_pic_parameter_set_id
    ("c0", unread(605, 5, "Short")),
    ("c000000000", unread(605, 5, "LongCode")),
    # it is 64
    ("c01040", outside(605, 5)),
    # it is 63: its 13 bits, four of the order count and a flag of the slice are read, and the bits end in the QP
    ("c01000", unread(713, 23, "Short")),
    # it is 0, and two of the four bits of the order count are present
    ("c4", unread(606, 6, "Short")),
    # after the QP of the slice comes no one bit
    ("c410", unread(735, 12, "BadAlignment")),
]


def slice_lines(number):
    """Returns lines on slice headers."""
    for *sets, rows in SLICE_ROWS:
        yield from stream_lines(number, *sets)
        for kind, digits, address, answer in rows:
            if address is not None:
                answer = f"slice size={len(digits) // 2} subpicture=0 address={address} 700=0 701=0 {answer}"
            yield f"slice {kind} {digits}", answer
        number += 1
    yield from stream_lines(number, *ONE_SETS, (b"\x88\x40", "600=1 601=0 602=0 603=0 605=0 606=0"))
    for digits, answer in INSIDE_ROWS:
        if isinstance(answer, int):
            answer = f"slice size={answer} subpicture=0 address=0 700=1 705=0 713=0"
        yield f"slice 8 {digits}", answer


def qp_lines(number):
    """Returns lines on pictures whose slice has the largest QP or the smallest one, of 8 and of 10 bits, and one beyond."""
    header = "600=1 601=0 602=0 603=0 605=0 606=0"
    for bits_more, qp, delta in ((0, 63, 0), (0, 63, 1), (0, 0, 0), (0, 0, -1), (2, -12, 0), (2, -12, -1)):
        yield from stream_lines(number, sps(sps_bitdepth_minus8=bits_more), whole(pps_init_qp_minus26=qp - 26))
        w = Writer(None)
        w.u(11, 0b11000100000)
        w.se(delta)
        rbsp = w.closed()
        told = f"slice size={len(rbsp)} subpicture=0 address=0 700=1 705=0 713={delta} | header {header}{SAME}"
        yield unit(IDR_N_LP, rbsp + b"\x5a\xa7\x80"), told
        picture = ("picture 0 unit=2 type=8 tid=0 clvss=1 after_eos=0 poc=0 subpictures=1 slices=1\n"
                   f"slice subpicture=0 address=0 qp={qp} list0=- list1=- alf=off lmcs=off scaling=off size=64x64 columns=0,1 rows=0,1 "
                   "slices=0,0,1,1 across=00 payload=5aa780")
        yield "pictures", picture if delta == 0 else "refused Structure { code: 14, kind: 0, id: 0 }"
        number += 1


def structure_lines():
    """Returns all lines on structures, each with its expected output."""
    yield from set_lines("sps", [*SPS_ROWS, *sps_ends()])
    yield from number_lines()
    yield from pps_lines()
    yield from sps_rewritten()
    yield from pps_rewritten()
    yield from headers_rewritten()
    yield from header_lines(100)
    yield from slice_lines(200)
    yield from qp_lines(300)
