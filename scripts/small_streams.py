"""Small VVC byte streams (H.266, Annex B) by number: `Stream(seed)` has the bytes, and what each picture was written from.

The bits are written here field by field, in the order of the syntax tables of clause 7.3, with names from the standard. A stream has up
to three coded layer video sequences of up to five pictures each. Tiles, subpictures and slices are drawn anew for each sequence. Streams
have sublayers, reference picture lists, weights, adaptation parameter sets of the three types, extensions, entry points, messages, ends of
sequences, and units that readers drop. They have one layer, 4:0:0 or 4:2:0, and 8 to 10 bits.

`Steady(seed, names)` is a stream of one sequence that can be merged with others of its number: pictures of one subpicture and one
slice, each with the PPS that is named. `Sibling(seed, number)` is one of several with data, messages, QPs and ids of their own.
"""
import math
import random
import re

ALF, LMCS, SCALING = 0, 1, 2
IDR = (7, 8)
IRAP_OR_GDR = (7, 8, 9, 10)
LEADING = (2, 3)
B, P, I = 0, 1, 2


def bits_for(count):
    """Returns how many bits a number below `count` takes."""
    return max(0, math.ceil(math.log2(count)))


class Writer:
    """Bits that are written, and the numbers that are drawn for them."""

    def __init__(self, draw):
        self.draw, self.bits = draw, []

    def u(self, n, value):
        self.bits += [value >> i & 1 for i in reversed(range(n))]
        return value

    def ue(self, value):
        n = (value + 1).bit_length()
        self.u(2 * n - 1, value + 1)
        return value

    def se(self, value):
        self.ue(2 * value - 1 if value > 0 else -2 * value)
        return value

    def flag(self, chance=0.5):
        return self.u(1, int(self.draw.random() < chance))

    def some_u(self, n):
        return self.u(n, self.draw.getrandbits(n))

    def some_ue(self, most):
        return self.ue(self.draw.randint(0, most))

    def some_se(self, most):
        return self.se(self.draw.randint(-most, most))

    def zeros(self):
        self.bits += [0] * (-len(self.bits) % 8)

    def closed(self):
        """Returns the bytes, with a one and zeros after the bits."""
        self.bits.append(1)
        self.zeros()
        text = "".join(map(str, self.bits))
        return int(text, 2).to_bytes(len(text) // 8, "big")


def escaped(rbsp):
    """Returns the bytes with emulation prevention."""
    return re.sub(rb"\0\0(?=[\0-\3])", b"\0\0\3", rbsp)


def unit(kind, tid, rbsp):
    """Returns a NAL unit of layer 0."""
    return bytes([0, kind << 3 | tid + 1]) + escaped(rbsp)


def some_bytes(draw, most):
    """Returns bytes that often need emulation prevention. The last byte isn't zero."""
    front = [draw.choice((0, 0, 0, 1, 2, 3, 255, draw.randrange(256))) for _ in range(draw.randrange(most))]
    return bytes(front + [draw.choice((1, 3, 128, draw.randint(1, 255)))])


# Layouts: tiles, subpictures and slices, in CTUs.


def parts_of(draw, total, most):
    """Returns numbers that add up to the total."""
    cuts = sorted(draw.sample(range(1, total), draw.randrange(min(most, total))))
    return [b - a for a, b in zip([0] + cuts, cuts + [total])]


def filled(explicit, total):
    """Returns the sizes that explicit sizes give: the last one is repeated while it fits, and then comes the rest."""
    sizes, left = list(explicit), total - sum(explicit)
    while left:
        sizes.append(min(left, explicit[-1]))
        left -= sizes[-1]
    return sizes


def some_explicit(draw, sizes):
    """Returns explicit sizes that give these sizes."""
    fronts = [sizes[:n] for n in range(1, len(sizes) + 1)]
    return draw.choice([front for front in fronts if filled(front, sum(sizes)) == sizes])


def split(draw, rect, chance):
    """Returns rectangles that make up a rectangle of tiles, in an order in which those left of one or above it come before it."""
    x, y, w, h = rect
    if w * h == 1 or draw.random() > chance:
        return [rect]
    if draw.randrange(w + h - 2) < w - 1:
        cut = draw.randint(1, w - 1)
        halves = [(x, y, cut, h), (x + cut, y, w - cut, h)]
    else:
        cut = draw.randint(1, h - 1)
        halves = [(x, y, w, cut), (x, y + cut, w, h - cut)]
    return [part for half in halves for part in split(draw, half, chance)]


class Slices:
    """Slices of one rectangle of tiles, or of one tile in parts of some rows of CTUs each, with the subpicture of each."""

    def __init__(self, rect, heights, subpics):
        self.rect, self.heights, self.subpics = rect, heights, subpics


class Layout:
    """The tiles and the subpictures of the pictures of a sequence."""

    def __init__(self, draw):
        self.ctu = draw.choice((32, 64, 128))
        self.columns = parts_of(draw, draw.randint(1, 5), 3)
        self.rows = parts_of(draw, draw.randint(1, 5), 3)
        self.width = self.samples(draw, sum(self.columns))
        self.height = self.samples(draw, sum(self.rows))
        self.areas = []
        self.subpics = []
        for rect in split(draw, (0, 0, len(self.columns), len(self.rows)), 0.7):
            heights = parts_of(draw, self.rows[rect[1]], 3) if rect[2:] == (1, 1) and draw.random() < 0.3 else None
            self.areas.append((rect, heights, len(self.subpics)))
            self.add_subpics(rect, heights)

    def samples(self, draw, ctus):
        """Returns a number of samples that has this many CTUs, of which the last may be cut."""
        return (ctus - 1) * self.ctu + 8 * draw.choice((1, self.ctu // 16, self.ctu // 8, self.ctu // 8))

    def area(self, rect):
        """Returns a rectangle of tiles in CTUs."""
        x, y, w, h = rect
        return (sum(self.columns[:x]), sum(self.rows[:y]), sum(self.columns[x:x + w]), sum(self.rows[y:y + h]))

    def add_subpics(self, rect, heights):
        x, y, w, h = self.area(rect)
        for height in heights or [h]:
            self.subpics.append((x, y, w, height))
            y += height

    def slices(self, draw):
        """Returns slices of each subpicture."""
        found = []
        for rect, heights, first in self.areas:
            if heights is not None:
                parts = [(height, first + k) for k, whole in enumerate(heights) for height in parts_of(draw, whole, 2)]
                found.append(Slices(rect, [height for height, _ in parts], [k for _, k in parts]))
            else:
                for part in split(draw, rect, 0.5):
                    rows = self.rows[part[1]]
                    heights_of = parts_of(draw, rows, 3) if part[2:] == (1, 1) and draw.random() < 0.4 else None
                    found.append(Slices(part, heights_of, [first] * len(heights_of or [0])))
        return found

    def size(self, k):
        """Returns the width and the height of a subpicture in samples."""
        x, y, w, h = self.subpics[k]
        return (min(w * self.ctu, self.width - x * self.ctu), min(h * self.ctu, self.height - y * self.ctu))

    def tiles(self, k):
        """Returns how many tile columns and rows a subpicture has."""
        x, y, w, h = self.subpics[k]
        inner = [sum(1 for at in range(1, len(sizes)) if low < sum(sizes[:at]) < low + length)
                 for sizes, low, length in ((self.columns, x, w), (self.rows, y, h))]
        return (inner[0] + 1, inner[1] + 1)

    def is_uniform(self):
        """Returns whether the subpictures are in the places of equal ones, row by row."""
        _, _, w, h = self.subpics[0]
        across = sum(self.columns) // w
        return all(rect == (k % across * w, k // across * h, w, h) for k, rect in enumerate(self.subpics))


# Parameter sets.


def write_ptl(w, sublayers):
    """Writes profile_tier_level()."""
    w.some_u(7)
    w.flag()
    w.some_u(8)
    w.u(2, w.draw.randrange(4))
    if w.flag(0.2):
        w.some_u(71)
        w.some_u(w.u(8, w.draw.choice((0, 0, 3, 12))))
    w.zeros()
    present = [w.flag() for _ in range(sublayers)]
    w.zeros()
    for _ in range(sum(present)):
        w.some_u(8)
    for _ in range(w.u(8, w.draw.choice((0, 0, 0, 2)))):
        w.some_u(32)


def write_timing(w, s):
    """Writes general_timing_hrd_parameters() and ols_timing_hrd_parameters()."""
    w.some_u(32)
    w.some_u(32)
    hrds = w.flag() + w.flag()
    units = cpbs = 0
    if hrds:
        w.flag()
        units = w.flag()
        w.some_u(8 * units)
        w.some_u(8)
        w.some_u(4 * units)
        cpbs = w.some_ue(2)
    each = w.flag() if s["sublayers"] else 0
    for _ in range(s["sublayers"] + 1 if each else 1):
        fixed = w.flag()
        within = 1 if fixed else w.flag()
        if within:
            w.some_ue(9)
        elif hrds and cpbs == 0:
            w.flag()
        for _ in range(hrds * (cpbs + 1)):
            for _ in range(4 if units else 2):
                w.some_ue(99)
            w.flag()


def write_tree(w, dual=False):
    """Writes the fields on how CTUs are split."""
    w.some_ue(2)
    if w.some_ue(3):
        w.some_ue(2)
        w.some_ue(2)


def write_subpics(w, s):
    """Writes the subpictures of an SPS."""
    layout, count = s["layout"], len(s["layout"].subpics)
    s["info"] = w.u(1, 1 if count > 1 else w.draw.randrange(2))
    s["treated"], s["filtered"] = [1] * count, [0] * count
    s["ids"], s["ids_in_pps"] = list(range(count)), False
    if not s["info"]:
        return
    w.ue(count - 1)
    if count > 1:
        independent = w.flag(0.7)
        same = w.u(1, int(layout.is_uniform() and w.draw.random() < 0.7))
        write_rects(w, s, independent, same)
    s["id_len"] = w.ue(w.draw.randint(max(1, bits_for(count)), 16) - 1) + 1
    if w.flag():
        s["ids"] = w.draw.sample(range(min(2 ** s["id_len"], 999)), count)
        s["ids_in_pps"] = not w.flag(0.6)
        if not s["ids_in_pps"]:
            for k in s["ids"]:
                w.u(s["id_len"], k)


def write_rects(w, s, independent, same):
    """Writes the places of the subpictures, and how they are treated."""
    layout = s["layout"]
    last = len(layout.subpics) - 1
    across, down = bits_for(sum(layout.columns)), bits_for(sum(layout.rows))
    for k, rect in enumerate(layout.subpics):
        if not same or k == 0:
            wide, high = layout.width > layout.ctu, layout.height > layout.ctu
            for value, bits, there in ((rect[0], across, k > 0 and wide), (rect[1], down, k > 0 and high),
                                       (rect[2] - 1, across, k < last and wide), (rect[3] - 1, down, k < last and high)):
                if there:
                    w.u(bits, value)
        if not independent:
            s["treated"][k] = w.flag(0.9)
            s["filtered"][k] = w.flag(0.1)


def write_structure(w, s, index, count):
    """Writes ref_pic_list_struct(), and returns how many entries it has, whether each is long-term, and whether their low bits are in
    headers.
    """
    entries = w.ue(w.draw.randint(1, 4))
    in_header = w.flag() if s["long_term"] and index < count else s["long_term"]
    long = []
    for i in range(entries):
        short = w.flag(0.7) if s["long_term"] else 1
        long.append(not short)
        if short:
            delta = w.some_ue(9)
            if delta + (0 if s["weighted"] and i > 0 else 1) > 0:
                w.flag()
        elif not in_header:
            w.some_u(s["lsb_bits"])
    return (long, in_header)


def write_chroma_tables(w, s):
    """Writes the fields on chroma QP, and returns whether joint residuals are used."""
    s["joint"] = w.flag() if s["chroma"] else 0
    if s["chroma"]:
        for _ in range(1 if w.flag() else 3 if s["joint"] else 2):
            w.some_se(20)
            for _ in range(w.some_ue(3) + 1):
                w.some_ue(5)
                w.some_ue(5)


def write_sps(draw, number, layout):
    """Writes an SPS, and returns its RBSP, and what is read of it later."""
    w, s = Writer(draw), {"id": number, "layout": layout, "qp": 0, "sublayers": draw.choice((0, 0, 1, 2, 3)), "chroma": draw.randrange(2)}
    w.u(4, number)
    w.u(4, 0)
    w.u(3, s["sublayers"])
    w.u(2, s["chroma"])
    w.u(2, {32: 0, 64: 1, 128: 2}[layout.ctu])
    w.u(1, 1)
    write_ptl(w, s["sublayers"])
    w.flag()
    if w.flag():
        w.u(1, 0)
    w.ue(layout.width)
    w.ue(layout.height)
    if w.flag(0.3):
        for _ in range(4):
            w.some_ue(1)
    write_subpics(w, s)
    write_sps_numbers(w, s)
    write_sps_tools(w, s)
    write_sps_lists(w, s)
    write_sps_inter(w, s)
    write_sps_end(w, s)
    return w.closed(), s


def write_sps_numbers(w, s):
    """Writes from the bit depth to the DPB parameters."""
    s["depth"] = w.some_ue(2)
    s["sync"] = w.flag()
    s["entry_points"] = w.flag()
    s["lsb_bits"] = w.u(4, w.draw.choice((0, 0, 1, 4, 12))) + 4
    s["msb_bits"] = w.draw.randint(1, 28 - (s["lsb_bits"] - 4)) if w.flag(0.2) else 0
    if s["msb_bits"]:
        w.ue(s["msb_bits"] - 1)
    s["ph_bits"] = sum(w.flag(0.3) for _ in range(8 * w.u(2, w.draw.choice((0, 0, 1)))))
    s["sh_bits"] = sum(w.flag(0.3) for _ in range(8 * w.u(2, w.draw.choice((0, 0, 1)))))
    each = w.flag() if s["sublayers"] else 0
    for _ in range(s["sublayers"] + 1 if each else 1):
        for most in (8, 4, 3):
            w.some_ue(most)


def write_sps_tools(w, s):
    """Writes from the smallest coding blocks to the LMCS."""
    w.some_ue(2)
    s["override"] = w.flag()
    write_tree(w)
    s["dual"] = w.flag() if s["chroma"] else 0
    if s["dual"]:
        write_tree(w)
    write_tree(w)
    if s["layout"].ctu > 32:
        w.flag()
    s["transform_skip"] = w.flag()
    if s["transform_skip"]:
        w.some_ue(3)
        w.flag()
    if w.flag():
        w.u(2, w.draw.randrange(4))
    s["lfnst"] = w.flag()
    write_chroma_tables(w, s)
    s["sao"] = w.flag()
    s["alf"] = w.flag()
    s["ccalf"] = w.flag() if s["alf"] and s["chroma"] else 0
    s["lmcs"] = w.flag()


def write_sps_lists(w, s):
    """Writes the reference picture lists."""
    s["weighted"] = w.flag(0.3) | w.flag(0.3)
    s["long_term"] = w.flag(0.3)
    s["idr_lists"] = w.flag(0.3)
    same = w.flag()
    s["lists"] = []
    for _ in range(1 if same else 2):
        count = w.some_ue(3)
        s["lists"].append([write_structure(w, s, index, count) for index in range(count)])
    if same:
        s["lists"] *= 2


def write_sps_inter(w, s):
    """Writes from reference wraparound to the parallel merge level."""
    w.flag()
    s["tmvp"] = w.flag()
    if s["tmvp"]:
        w.flag()
    amvr = w.flag()
    s["bdof_in_ph"] = w.flag() if w.flag() else 0
    w.flag()
    s["dmvr_in_ph"] = w.flag() if w.flag() else 0
    s["mmvd_fullpel"] = w.flag() if w.flag() else 0
    merge = w.some_ue(5)
    w.flag()
    s["prof_in_ph"] = 0
    if w.flag():
        w.some_ue(4)
        w.flag()
        if amvr:
            w.flag()
        s["prof_in_ph"] = w.flag() if w.flag() else 0
    w.flag()
    w.flag()
    if merge <= 4 and w.flag() and merge <= 3:
        w.some_ue(1)
    w.some_ue(2)


def write_sps_end(w, s):
    """Writes from intra tools to the end."""
    for _ in range(6 if s["chroma"] else 3):
        w.flag()
    w.u(1, 0)
    if s["transform_skip"]:
        w.some_ue(3)
    if w.flag():
        w.some_ue(3)
    if w.flag(0.3):
        intervals = w.some_u(2) + 1
        w.some_se(9)
        for _ in range(intervals):
            w.some_se(9)
            w.some_ue(9)
    s["scaling"] = w.flag(0.3)
    if s["lfnst"] and s["scaling"]:
        w.flag()
    s["dep_quant"] = w.flag()
    s["sign_hiding"] = w.flag()
    w.u(1, 0)
    if w.flag(0.3):
        write_timing(w, s)
    w.flag()
    if w.flag(0.2):
        length = w.some_ue(5) + 1
        w.zeros()
        w.some_u(8 * length)
    w.u(1, 0)


def write_slice_list(w, p, count):
    """Writes the slice list of a PPS with several slices: with the tile of each by its distance from the one before, or without."""
    columns = len(p["layout"].columns)
    delta = 1 if not fits_without_delta(p, columns) else w.draw.randrange(2)
    if count > 2:
        w.u(1, delta)
    else:
        delta = 0
    first = 0
    for at, part in enumerate(p["slices"]):
        if first >= count - 1:
            break
        write_slice(w, p, part, delta)
        first += len(part.subpics)
        if delta and first < count:
            w.se(tile_of(p["slices"][at + 1], columns) - tile_of(part, columns))


def tile_of(part, columns):
    """Returns the first tile of some slices."""
    return part.rect[1] * columns + part.rect[0]


def write_slice(w, p, part, delta):
    """Writes the fields of a slice, or of the slices of a tile."""
    x, y, width, height = part.rect
    if x != len(p["layout"].columns) - 1:
        w.ue(width - 1)
    if y != len(p["layout"].rows) - 1 and (delta or x == 0):
        w.ue(height - 1)
    if (width, height) == (1, 1) and p["layout"].rows[y] > 1:
        explicit = some_explicit(w.draw, part.heights) if len(part.subpics) > 1 else []
        w.ue(len(explicit))
        for rows in explicit:
            w.ue(rows - 1)


def fits_without_delta(p, columns):
    """Returns whether each slice begins at the tile after the slice before, and has the same height if its height isn't coded."""
    rows, before, height_before = len(p["layout"].rows), None, 1
    for part in p["slices"]:
        x, y, width, height = part.rect
        if before is not None and tile_of(part, columns) != before:
            return False
        if x != 0 and y != rows - 1 and height != height_before:
            return False
        before = tile_of(part, columns) + width
        if before % columns == 0:
            before += (height - 1) * columns
        height_before = height
    return True


def write_partition(w, s, p):
    """Writes the tiles and the slices of a PPS."""
    layout = s["layout"]
    w.u(2, {32: 0, 64: 1, 128: 2}[layout.ctu])
    columns, rows = some_explicit(w.draw, layout.columns), some_explicit(w.draw, layout.rows)
    w.ue(len(columns) - 1)
    w.ue(len(rows) - 1)
    for size in columns + rows:
        w.ue(size - 1)
    if len(layout.columns) * len(layout.rows) > 1:
        w.flag()
        w.u(1, 1)
    count = sum(len(part.subpics) for part in p["slices"])
    single = count == len(layout.subpics) and w.draw.random() < 0.4
    w.u(1, int(single))
    if not single:
        w.ue(count - 1)
        if count > 1:
            write_slice_list(w, p, count)
    if single or count > 1:
        w.flag()


def write_pps(draw, number, s):
    """Writes a PPS of an SPS, and returns its RBSP, and what is read of it later."""
    w, layout = Writer(draw), s["layout"]
    p = {"id": number, "layout": layout, "slices": layout.slices(draw)}
    alone = sum(len(part.subpics) for part in p["slices"]) == 1 and len(layout.columns) * len(layout.rows) == 1
    p["partitioned"] = not alone or draw.random() < 0.5
    w.u(6, number)
    w.u(4, s["id"])
    w.u(1, 0)
    w.ue(layout.width)
    w.ue(layout.height)
    if w.flag(0.2):
        for _ in range(4):
            w.some_ue(1)
    w.u(1, 0)
    p["output"] = w.flag(0.3)
    w.u(1, int(not p["partitioned"]))
    write_pps_ids(w, s, p)
    if p["partitioned"]:
        write_partition(w, s, p)
    write_pps_numbers(w, s, p)
    write_pps_filters(w, p)
    w.u(1, 0)
    return w.closed(), p


def write_pps_ids(w, s, p):
    """Writes the ids of subpictures, if they are in the PPS, with a new id for each."""
    p["ids"] = s["ids"]
    w.u(1, int(s["ids_in_pps"]))
    if s["ids_in_pps"]:
        p["ids"] = w.draw.sample(range(min(2 ** s["id_len"], 999)), len(s["ids"]))
        if p["partitioned"]:
            w.ue(len(s["ids"]) - 1)
        w.ue(s["id_len"] - 1)
        for k in p["ids"]:
            w.u(s["id_len"], k)


def write_pps_numbers(w, s, p):
    """Writes from CABAC to the lists of chroma QP offsets."""
    p["cabac_init"] = w.flag()
    p["active"] = [w.some_ue(3) + 1, w.some_ue(3) + 1]
    p["list1_index"] = w.flag()
    p["weighted_p"], p["weighted_b"] = w.flag(0.3), w.flag(0.3)
    w.u(1, 0)
    p["qp"] = 26 + w.se(w.draw.randint(-10, 10) + s["qp"])
    p["cu_qp"] = w.flag()
    p["chroma_tools"], p["joint"], p["slice_chroma"], p["cu_chroma"] = w.flag(), 0, 0, 0
    if p["chroma_tools"]:
        w.some_se(6)
        w.some_se(6)
        p["joint"] = w.flag()
        if p["joint"]:
            w.some_se(6)
        p["slice_chroma"] = w.flag()
        p["cu_chroma"] = w.flag()
        if p["cu_chroma"]:
            for _ in range((w.some_ue(2) + 1) * (3 if p["joint"] else 2)):
                w.some_se(6)


def write_pps_filters(w, p):
    """Writes from the deblocking filter to extensions."""
    p["deblocking_override"] = p["deblocking_disabled"] = p["deblocking_in_ph"] = 0
    if w.flag():
        p["deblocking_override"] = w.flag()
        p["deblocking_disabled"] = w.flag()
        if p["partitioned"] and p["deblocking_override"]:
            p["deblocking_in_ph"] = w.flag()
        if not p["deblocking_disabled"]:
            for _ in range(6 if p["chroma_tools"] else 2):
                w.some_se(6)
    p["rpl_in_ph"] = p["sao_in_ph"] = p["alf_in_ph"] = p["wp_in_ph"] = p["qp_in_ph"] = 0
    if p["partitioned"]:
        p["rpl_in_ph"], p["sao_in_ph"], p["alf_in_ph"] = w.flag(), w.flag(), w.flag()
        if (p["weighted_p"] or p["weighted_b"]) and p["rpl_in_ph"]:
            p["wp_in_ph"] = w.flag()
        p["qp_in_ph"] = w.flag()
    p["ph_extension"], p["sh_extension"] = w.flag(0.2), w.flag(0.2)


# Headers.


def write_lists(w, s, p):
    """Writes ref_pic_lists(), and returns how many entries each list has."""
    lengths, index = [], 0
    for k, structures in enumerate(s["lists"]):
        count, told = len(structures), k == 0 or p["list1_index"]
        if count and told:
            from_sps = w.flag()
        elif k == 0 or not count:
            from_sps = 0
        if from_sps and count > 1 and told:
            usable = count if p["list1_index"] else min(count, max(1, len(s["lists"][1])))
            index = w.u(bits_for(count), w.draw.randrange(usable))
        elif k == 0 or not (from_sps and count > 1):
            index = 0
        long, in_header = structures[index] if from_sps else write_structure(w, s, count, count)
        for _ in range(sum(long)):
            if in_header:
                w.some_u(s["lsb_bits"])
            if w.flag():
                w.some_ue(9)
        lengths.append(len(long))
    return lengths


def write_weights(w, s, p, lengths, active):
    """Writes pred_weight_table()."""
    w.some_ue(7)
    if s["chroma"]:
        w.some_se(3)
    for k in range(2):
        if p["wp_in_ph"]:
            there = k == 0 or p["weighted_b"] and lengths[1]
            count = w.some_ue(min(15, lengths[k])) if there else 0
        else:
            count = active[k] if k == 0 or p["weighted_b"] else 0
        luma = [w.flag() for _ in range(count)]
        chroma = [w.flag() if s["chroma"] else 0 for _ in range(count)] if s["chroma"] else [0] * count
        for there, also in zip(luma, chroma):
            for _ in range(2 * there + 4 * also):
                w.some_se(20)


def write_alf(w, s, state):
    """Writes the fields on the adaptive loop filter."""
    if not w.flag(0.7):
        return
    for _ in range(w.u(3, w.draw.randrange(5))):
        w.u(3, state.body(ALF))
    if s["chroma"]:
        if w.flag() | w.flag():
            w.u(3, state.body(ALF))
    if s["ccalf"]:
        for _ in range(2):
            if w.flag():
                w.u(3, state.body(ALF))


def write_deblocking(w, p):
    """Writes the fields on the deblocking filter of a header."""
    if w.flag():
        if p["deblocking_disabled"] or not w.flag():
            for _ in range(6 if p["chroma_tools"] else 2):
                w.some_se(6)


def write_extension(w):
    """Writes an extension of a header."""
    w.some_u(8 * w.ue(w.draw.choice((0, 1, 5))))


def write_picture_header(w, s, p, state, h):
    """Writes picture_header_structure() of a picture whose type and count are in h, to which the other numbers are added."""
    rap = w.u(1, int(h["type"] in IRAP_OR_GDR))
    h["non_ref"] = w.flag(0.2)
    if rap:
        w.u(1, int(h["type"] == 10))
    h["inter"] = w.flag(0.1 if rap else 0.9)
    h["intra"] = w.flag() if h["inter"] else 1
    w.ue(p["id"])
    w.u(s["lsb_bits"], h["lsb"])
    if h["type"] == 10:
        w.some_ue(9)
    w.some_u(s["ph_bits"])
    h["msb"] = None
    if s["msb_bits"] and w.flag():
        h["msb"] = w.u(s["msb_bits"], w.draw.randrange(2 ** min(s["msb_bits"], 10)))
    if s["alf"] and p["alf_in_ph"]:
        write_alf(w, s, state)
    h["lmcs"] = w.flag() if s["lmcs"] else 0
    if h["lmcs"]:
        w.u(2, state.body(LMCS))
        w.some_u(1 if s["chroma"] else 0)
    h["scaling"] = w.flag() if s["scaling"] else 0
    if h["scaling"]:
        w.u(3, state.body(SCALING))
    if p["output"] and not h["non_ref"]:
        w.flag()
    h["lists"] = write_lists(w, s, p) if p["rpl_in_ph"] else [0, 0]
    write_picture_tools(w, s, p, h)


def write_picture_tools(w, s, p, h):
    """Writes a picture header from partition constraints on."""
    override = w.flag() if s["override"] else 0
    if h["intra"]:
        for _ in range((2 if s["dual"] else 1) if override else 0):
            write_tree(w)
        write_subdivisions(w, p)
    h["tmvp"] = 0
    if h["inter"]:
        if override:
            write_tree(w)
        write_subdivisions(w, p)
        write_picture_inter(w, s, p, h)
    h["qp"] = w.some_se(8) if p["qp_in_ph"] else None
    if s["joint"]:
        w.flag()
    if s["sao"] and p["sao_in_ph"]:
        w.some_u(2 if s["chroma"] else 1)
    if p["deblocking_in_ph"]:
        write_deblocking(w, p)
    if p["ph_extension"]:
        write_extension(w)


def write_subdivisions(w, p):
    if p["cu_qp"]:
        w.some_ue(3)
    if p["cu_chroma"]:
        w.some_ue(3)


def write_picture_inter(w, s, p, h):
    """Writes what a picture header has for slices that aren't I slices."""
    first, second = h["lists"]
    h["tmvp"] = w.flag() if s["tmvp"] else 0
    if h["tmvp"] and p["rpl_in_ph"]:
        named = h["lists"][0 if (w.flag() if second else 1) else 1]
        if named > 1:
            w.some_ue(named - 1)
    if s["mmvd_fullpel"]:
        w.flag()
    if not p["rpl_in_ph"] or second:
        w.some_u(1 + s["bdof_in_ph"] + s["dmvr_in_ph"])
    if s["prof_in_ph"]:
        w.flag()
    if p["wp_in_ph"]:
        write_weights(w, s, p, h["lists"], None)


def write_slice_header(w, s, p, state, h, place):
    """Writes slice_header() of a slice at its place: its subpicture, its address, how many the subpicture has, and its entry points."""
    subpic, address, count, points = place
    if s["info"]:
        w.u(s["id_len"], p["ids"][subpic])
    if count > 1:
        w.u(bits_for(count), address)
    w.some_u(s["sh_bits"])
    lists = h["lists"]
    reach = p["rpl_in_ph"] or h["type"] not in IDR or s["idr_lists"]
    kind = w.ue(slice_type(w.draw, h, reach, lists)) if h["inter"] else I
    if h["type"] in IRAP_OR_GDR:
        w.u(1, h["no_output"])
    if s["alf"] and not p["alf_in_ph"]:
        write_alf(w, s, state)
    for used in ("lmcs", "scaling"):
        if h[used] and not h["inside"]:
            w.flag()
    if reach and not p["rpl_in_ph"]:
        lists = write_lists(w, s, p)
    write_slice_inter(w, s, p, h, kind, lists)
    write_slice_tools(w, s, p, h)
    if points:
        length = w.some_ue(31) + 1
        for _ in range(points):
            w.some_u(length)


def slice_type(draw, h, reach, lists):
    """Returns a type that the header allows."""
    if not reach:
        return I
    return draw.choice([B, P] + ([I] if h["intra"] else []))


def write_slice_inter(w, s, p, h, kind, lists):
    """Writes what a slice header has for a slice that isn't an I slice."""
    if kind == I:
        return
    told = [True, kind == B]
    active = [0, 0]
    override, several = 1, [there and length > 1 for there, length in zip(told, lists)]
    if any(several):
        override = w.flag()
    for k in range(2):
        if told[k] and override:
            active[k] = w.some_ue(min(lists[k], 15) - 1) + 1 if several[k] else 1
        elif told[k]:
            active[k] = min(p["active"][k], lists[k])
    if p["cabac_init"]:
        w.flag()
    if h["tmvp"] and not p["rpl_in_ph"]:
        named = active[0 if (w.flag() if kind == B else 1) else 1]
        if named > 1:
            w.some_ue(named - 1)
    if not p["wp_in_ph"] and (p["weighted_p"] if kind == P else p["weighted_b"]):
        write_weights(w, s, p, lists, active)


def write_slice_tools(w, s, p, h):
    """Writes a slice header from its QP on, without entry points."""
    if not p["qp_in_ph"]:
        w.some_se(8)
    if p["slice_chroma"]:
        w.some_se(6)
        w.some_se(6)
        if s["joint"]:
            w.some_se(6)
    if p["cu_chroma"]:
        w.flag()
    if s["sao"] and not p["sao_in_ph"]:
        w.some_u(2 if s["chroma"] else 1)
    if p["deblocking_override"] and not p["deblocking_in_ph"]:
        write_deblocking(w, p)
    dep_quant = w.flag() if s["dep_quant"] else 0
    hiding = w.flag() if s["sign_hiding"] and not dep_quant else 0
    if s["transform_skip"] and not dep_quant and not hiding:
        w.flag()
    if p["sh_extension"]:
        write_extension(w)


# Streams.


class Stream:
    """A stream: its bytes, and its pictures, each with what is known of it."""

    def __init__(self, seed):
        self.draw, self.bytes, self.pictures = random.Random(seed), b"", []
        self.bodies = {ALF: set(), LMCS: set(), SCALING: set()}
        self.before, self.ended, self.messages = (0, 0), False, []
        for number in range(self.draw.randint(1, 3)):
            self.add_sequence(number)
        for _ in range(self.draw.choice((0, 0, 1))):
            self.add(self.draw.choice((21, 22)), 0, b"")

    def add(self, kind, tid, rbsp):
        """Writes a unit after a start code, with zeros around it."""
        added = unit(kind, tid, rbsp)
        self.bytes += bytes(self.draw.choice((0, 1, 1, 4))) + b"\0\0\1" + added
        return added

    def add_sequence(self, number):
        """Writes a coded layer video sequence."""
        draw = self.draw
        if number > 0 and draw.random() < 0.5:
            self.add(draw.choice((21, 22)), 0, b"")
            self.ended = True
        if draw.random() < 0.3:
            self.add(14, 0, bytes([draw.randrange(256), draw.randrange(16) << 4, 128]))
        self.sps = write_sps(draw, draw.choice((0, 0, 7, 15)), Layout(draw))
        self.add(15, 0, self.sps[0])
        self.pps = {}
        for at in range(draw.randint(1, 5)):
            self.add_picture(at == 0)

    def add_dropped(self, chance):
        """Writes a unit that readers drop, or nothing."""
        if self.draw.random() < chance:
            kind = self.draw.choice((4, 11, 13, 20, 24, 25, 27, 28, 31))
            self.add(kind, self.draw.randrange(3), some_bytes(self.draw, 9))

    def body(self, kind):
        """Returns the id of an adaptation parameter set of the kind that has come. Writes one if none has."""
        if not self.bodies[kind] or self.asked < 3 and self.draw.random() < 0.4:
            self.asked += 1
            self.needed.append((kind, self.draw.randrange(4 if kind == LMCS else 8)))
            self.bodies[kind].add(self.needed[-1][1])
        return self.draw.choice(sorted(self.bodies[kind]))

    def add_body(self, unit_kind, tid, kind, number):
        """Writes an adaptation parameter set."""
        self.add(unit_kind, tid, bytes([kind << 5 | number]) + some_bytes(self.draw, 12))

    def add_messages(self, tid):
        """Writes units of messages, of which those of three types are carried, or nothing."""
        draw = self.draw
        for _ in range(draw.choice((0, 0, 0, 1, 2))):
            rbsp = b""
            for _ in range(draw.randint(1, 3)):
                kind, payload = draw.choice((137, 144, 147, 5, 255, 300)), some_bytes(draw, 6)
                message = b"\xff" * (kind // 255) + bytes([kind % 255, len(payload)]) + payload
                rbsp += message
                if kind in (137, 144, 147):
                    self.messages.append(message)
            self.add(23, tid, rbsp + b"\x80")

    def type_of(self, first):
        """Returns the type of the next picture."""
        if not self.pictures or self.ended:
            return self.draw.choice(IRAP_OR_GDR)
        return self.draw.choice(IDR if first else (0, 0, 0, 0, 1, 2, 3, 9, 10))

    def tid_of(self, kind):
        """Returns its TemporalId."""
        return 0 if kind in IRAP_OR_GDR else self.draw.randint(0, self.sps[1]["sublayers"])

    def payload(self):
        """Returns the data of a slice."""
        return some_bytes(self.draw, 30)

    def chosen_pps(self, tid):
        """Returns a PPS that has come, or writes one."""
        number = self.draw.choice((0, 1, 63))
        if number not in self.pps or self.draw.random() < 0.3:
            rbsp, self.pps[number] = write_pps(self.draw, number, self.sps[1])
            self.add(16, self.draw.randint(0, tid), rbsp)
        return self.pps[number]

    def add_picture(self, first):
        """Writes a picture, and before it sets that come again or are new."""
        draw, s = self.draw, self.sps[1]
        kind = self.type_of(first)
        tid = self.tid_of(kind)
        self.add_dropped(0.2)
        if draw.random() < 0.2:
            self.add(15, 0, self.sps[0])
        p = self.chosen_pps(tid)
        h = {"type": kind, "tid": tid, "lsb": draw.randrange(2 ** min(s["lsb_bits"], 6)), "no_output": draw.randrange(2)}
        h["clvss"] = kind in IDR or kind in (9, 10) and (not self.pictures or self.ended)
        places = places_of(s, p)
        h["inside"] = len(places) == 1 and draw.random() < 0.6
        self.needed, self.asked = [], 0
        headers = self.headers(s, p, h, places)
        for body_kind, number in self.needed:
            self.add_body(draw.choice((17, 17, 18)), draw.randint(0, tid), body_kind, number)
        self.add_messages(tid)
        self.add_units(h, places, headers)
        self.pictures.append(self.facts(s, p, h, places))
        self.messages, self.ended = [], False

    def headers(self, s, p, h, places):
        """Returns the picture header, if it is a unit of its own, and the slice headers."""
        alone = Writer(self.draw)
        write_picture_header(alone, s, p, self, h)
        found = [None if h["inside"] else alone.closed()]
        for place in places:
            w = Writer(self.draw)
            w.u(1, int(h["inside"]))
            if h["inside"]:
                w.bits += alone.bits
            write_slice_header(w, s, p, self, h, place)
            found.append(w.closed())
        return found

    def add_units(self, h, places, headers):
        """Writes the units of a picture's headers and slices, with others between them."""
        draw = self.draw
        h["header"] = None if headers[0] is None else self.add(19, h["tid"], headers[0])
        h["units"] = []
        for at, header in enumerate(headers[1:]):
            self.add_dropped(0.1)
            if at > 0 and draw.random() < 0.1:
                self.add(23, h["tid"], b"\x90\x04\x03\xe8\x01\x90\x80")
            h["units"].append(self.add(h["type"], h["tid"], header + self.payload()))
        if draw.random() < 0.1:
            number = draw.randrange(8)
            self.bodies[ALF].add(number)
            self.add_body(18, h["tid"], ALF, number)

    def facts(self, s, p, h, places):
        """Returns what is known of a picture that was written."""
        layout = s["layout"]
        subpics = [[] for _ in layout.subpics]
        for (k, *_), written in zip(places, h["units"]):
            subpics[k].append(written)
        return {
            "type": h["type"], "tid": h["tid"], "clvss": h["clvss"], "poc": self.count(s, h), "header": h["header"],
            "after_end": self.ended and bool(self.pictures), "subpictures": subpics, "pps": p["id"],
            "messages": unit(23, h["tid"], b"".join(self.messages) + b"\x80") if self.messages else None,
            "sizes": [layout.size(k) for k in range(len(subpics))], "tiles": [layout.tiles(k) for k in range(len(subpics))],
            "treated": s["treated"], "filtered": s["filtered"], "size": (layout.width, layout.height),
        }

    def count(self, s, h):
        """Returns the picture order count (8.3.1)."""
        lsbs, (lsb, msb) = 2 ** s["lsb_bits"], self.before
        if h["msb"] is not None:
            msb = h["msb"] * lsbs
        elif h["clvss"]:
            msb = 0
        elif h["lsb"] < lsb and lsb - h["lsb"] >= lsbs // 2:
            msb += lsbs
        elif h["lsb"] > lsb and h["lsb"] - lsb > lsbs // 2:
            msb -= lsbs
        if h["tid"] == 0 and not h["non_ref"] and h["type"] not in LEADING:
            self.before = (h["lsb"], msb)
        return msb + h["lsb"]


class Square(Layout):
    """One CTU, which is one subpicture."""

    def __init__(self, ctu):
        self.ctu, self.columns, self.rows, self.width, self.height = ctu, [1], [1], ctu, ctu
        self.areas, self.subpics = [((0, 0, 1, 1), None, 0)], [(0, 0, 1, 1)]


class Tiled(Layout):
    """Tiles of whole CTUs, which are one subpicture and one slice."""

    def __init__(self, draw):
        super().__init__(draw)
        columns, rows = sum(self.columns), sum(self.rows)
        self.width, self.height = columns * self.ctu, rows * self.ctu
        self.areas, self.subpics = [((0, 0, len(self.columns), len(self.rows)), None, 0)], [(0, 0, columns, rows)]

    def slices(self, draw):
        return [Slices(self.areas[0][0], None, [0])]


class Steady(Stream):
    """A stream of one sequence, an IDR picture and pictures of type 0 with TemporalId 0, with the id of the PPS of each given. Streams
    of one number and one layout have the same sets and headers, except for a QP that is added to theirs. With a size, slices have
    this many bytes of data, each value equally often, and others in streams of another kind of data.
    """

    def __init__(self, seed, names, size=0, data=0, layout=None, qp=0):
        self.draw, self.bytes, self.pictures = random.Random(seed), b"", []
        self.bodies = {ALF: set(), LMCS: set(), SCALING: set()}
        self.before, self.ended, self.messages = (0, 0), False, []
        self.names, self.size, self.data = names, size, random.Random(data)
        self.sps = write_sps(self.draw, 0, layout or Square(64))
        self.sps[1]["qp"] = qp
        self.add(15, 0, self.sps[0])
        self.pps = {}
        for name in sorted(set(names)):
            rbsp, self.pps[name] = write_pps(self.draw, name, self.sps[1])
            self.add(16, 0, rbsp)
        for at in range(len(names)):
            self.add_picture(at == 0)

    def add_dropped(self, chance):
        """Writes none."""

    def add_messages(self, tid):
        """Writes none."""

    def type_of(self, first):
        return IDR[0] if first else 0

    def tid_of(self, kind):
        return 0

    def chosen_pps(self, tid):
        return self.pps[self.names[len(self.pictures)]]

    def payload(self):
        return self.data.randbytes(self.size - 1) + b"\x80" if self.size else some_bytes(self.draw, 30)


class Sibling(Steady):
    """One of the streams of a number that can be merged with one another. They have the same pictures, of all types and TemporalIds,
    with ends of sequences between some. Each has data, messages, QPs and ids of its own. Every second one has some other filters,
    few enough for all of a picture's to find ids.
    """

    def __init__(self, seed, number):
        shared, own = random.Random(seed), random.Random(f"{seed} {number}")
        self.number = number
        self.ids = {kind: own.sample(range(count), count) for kind, count in ((ALF, 8), (LMCS, 4), (SCALING, 8))}
        pps = sorted(own.sample(range(64), 3))
        names = shared.choices(pps, k=shared.randint(1, 6))
        super().__init__(seed, names, data=f"{seed} {number}", layout=Tiled(shared), qp=own.randint(-6, 6))

    type_of, tid_of = Stream.type_of, Stream.tid_of

    def add_picture(self, first):
        if not first and self.draw.random() < 0.2:
            self.add(self.data.choice((21, 22)), 0, b"")
            self.ended = True
        super().add_picture(first)

    def add_messages(self, tid):
        """Writes one that is carried, or nothing."""
        if self.draw.random() < 0.5:
            self.messages.append(b"\x90\x04" + self.data.randbytes(4))
            self.add(23, tid, self.messages[-1] + b"\x80")

    def body(self, kind):
        return self.ids[kind][super().body(kind)]

    def add_body(self, unit_kind, tid, kind, number):
        most = 4 + self.sps[1]["chroma"] + 2 * self.sps[1]["ccalf"]
        version = bytes([self.number % 2 + 1]) if kind == ALF and number < 8 - most else b""
        self.add(unit_kind, tid, bytes([kind << 5 | self.ids[kind][number]]) + some_bytes(self.draw, 12) + version)

    def payload(self):
        self.written = some_bytes(self.data, 30)
        return self.written

    def facts(self, s, p, h, places):
        return {**super().facts(s, p, h, places), "data": escaped(self.written)}


def places_of(s, p):
    """Returns the places of the slices of a picture, in order: subpicture, address, how many the subpicture has, and entry points."""
    slices = []
    for part in p["slices"]:
        rows = s["layout"].rows[part.rect[1]:part.rect[1] + part.rect[3]]
        runs = [[height] for height in part.heights] if part.heights else [rows * part.rect[2]]
        for k, heights in zip(part.subpics, runs):
            count = sum(heights) if s["sync"] else len(heights)
            slices.append((k, count - 1 if s["entry_points"] else 0))
    found = []
    for k in range(len(s["layout"].subpics)):
        points = [count for subpic, count in slices if subpic == k]
        found += [(k, address, len(points), count) for address, count in enumerate(points)]
    return found
