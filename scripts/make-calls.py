#!/usr/bin/env python3
"""Makes the files stdin and stdout of crates/vx_calls: the lines that it reads, and their expected output.

usage: scripts/make-calls.py

No expected output is taken from the program. Rows worked by hand are here, with their results; long results are computed by this script
from a few sentences of the format. Tables are in table_calls.py, which reads and writes its structures by itself, and regions in
fit_cases.py, which applies the definitions to sets. The files of crates/vx_calls/src say what each word of a line means.
The last line is `N lines are answered`.
"""
import os

from bit_calls import Calls, joined, listed, spelled, told
from fit_cases import asked_and_answered
from memory_calls import add_memory
from rbsp_calls import add_rbsps
from stream_calls import add_streams
from table_calls import add_tables

CRATE = os.path.join(os.path.dirname(os.path.abspath(__file__)), "..", "crates", "vx_calls")

# ---- bits

# Bytes, calls, and their results, each with the place after it.
FIXED = [
    ("a753f0", "u0 u1 u4 u7 u13 u12 u1 u0", f"0@0 1@1 {0b0100}@5 {0b1110101}@12 Short@12 {0b001111110000}@24 Short@24 0@24"),
    ("0123456789", "u3 u32", f"0@3 {0x091A2B3C}@35"),
]

FAR = "00000001fffffffe"

# Bytes, the number of ue(v) or se(v) or the cause of a refusal, and the place after it.
UNSIGNED = [
    ("80", 0, 1), ("40", 1, 3), ("60", 2, 3), ("0208", 64, 13), (FAR, 2 ** 32 - 2, 63), ("0000000100000000", 0x7FFFFFFF, 63),
    ("-", "Short", 0), ("00", "Short", 0), ("02", "Short", 0), ("00000001000000", "Short", 0),
    ("00000000", "LongCode", 0), ("0000000080", "LongCode", 0),
]
SIGNED = [
    ("80", 0, 1), ("40", 1, 3), ("60", -1, 3), ("20", 2, 5), ("12", -4, 7), ("00000001fffffffc", 2 ** 31 - 1, 63),
    (FAR, 1 - 2 ** 31, 63), ("10", 4, 7), ("00000000", "LongCode", 0), ("08", "Short", 0),
]

# Bytes, how many bits are taken before, their number, and why each alignment fails, if it does.
BAD, END, SHORT = "BadAlignment", "BadTrailing", "Short"
ALIGNMENTS = [
    ("e0", 3, 7, [None, BAD, END]),
    ("e1", 3, 7, [BAD, BAD, END]),
    ("f0", 3, 7, [BAD, None, None]),
    ("f000", 3, 7, [BAD, None, END]),
    ("80", 0, 0, [None, None, None]),
    ("00", 0, 0, [None, BAD, END]),
    ("01", 7, 0, [BAD, None, None]),
    ("-", 0, 0, [None, SHORT, SHORT]),
    ("ff", 8, 255, [None, SHORT, SHORT]),
]

# What is written, and its bytes.
WRITTEN = [
    # 0000001000001 0001001, and 1000 after them.
    ("ue=64 se=-4 close", "020898"),
    (f"u3=5 u32={0x091A2B3C} u0=0 align align ue=4294967294 se=1 close", "a123456780" "00000001fffffffe" "a0"),
    ("close", "80"),
    ("u3=7 one one bytes", "f080"),
]


def alignment(taken, name, failure):
    """Returns the result of an alignment after some bits: a one needs a bit more than zeros do."""
    if failure:
        return f"{failure}@{taken}"
    behind = taken if name == "align" else taken + 1
    return f"0@{(behind + 7) // 8 * 8}"


def add_bits(calls):
    calls.about("codes that are read: fixed ones, ue(v), se(v), and alignments of forks")
    for data, words, answer in FIXED:
        calls.call(f"bits {data} {words}", answer)
    for code, rows in [("ue", UNSIGNED), ("se", SIGNED)]:
        for data, answer, place in rows:
            calls.call(f"bits {data} {code}", f"{answer}@{place}")
    for data, taken, number, failures in ALIGNMENTS:
        names = ["align", "one", "trailing"]
        answers = [alignment(taken, name, failure) for name, failure in zip(names, failures)]
        calls.call(f"bits {data} u{taken} ~align ~one ~trailing", " ".join([f"{number}@{taken}", *answers]))
    calls.about("codes that are written, and many that are read again")
    for words, answer in WRITTEN:
        calls.call(f"code {words}", answer)
    calls.call("codes 900000", numbers_written(900_000))


def numbers_written(count):
    """Returns the expected output for the codes of the numbers below `count`, each as ue(v) and as u(32)."""
    codes = []
    for number in range(count):
        code = f"{number + 1:b}"
        codes.append("0" * (len(code) - 1) + code + f"{number:032b}")
    bits = "".join(codes) + "1"
    size = -(-len(bits) // 8)
    data = int(bits.ljust(8 * size, "0"), 2).to_bytes(size, "big")
    return f"{told(data)} {count} 0@{8 * size}"


# ---- lists and texts

LISTS = [
    ("fields 7=5 9=-3 7=6 first:7 first:8 item:1 kept", "Some(5) None 9=-3 3 of 3 kept, true"),
    ("fields numbered:40000 first:39999 kept", "Some(39999) 40000 of 40000 kept, true"),
    (f"bytes {spelled((bytes([0xC4]), 2 ** 23))} {0xC4}", f"{told(bytes([0xC4]) * (2 ** 23 + 1))} of 1"),
]

# Sizes of RBSPs, and whether a copy is kept.
SHORT_RBSPS = [(0, True), (1, True), (1_024, True), (1_025, False), (2 ** 23, False)]

TEXTS = [
    ("read-memory", "out of memory, memory: true"),
    ("read-refused", "refused, memory: false"),
    ("layout-memory", "out of memory"),
    ("layout-fault", "tiles, slices and subpictures are no layout"),
    ("tiles-overflow", "the sizes pass the total"),
]


def add_lists(calls):
    calls.about("lists, at the sizes that they have in use")
    for line, answer in LISTS:
        calls.call(line, answer)
    for size, kept in SHORT_RBSPS:
        rbsp = bytes([0xC4]), size
        calls.call(f"short {spelled(rbsp)}", f"{told(joined(rbsp))} true" if kept else "none false")
    calls.about("what errors say of themselves")
    for word, answer in TEXTS:
        calls.call(f"text {word}", answer)


# ---- layouts

MOST = 2 ** 32 - 1
BOUNDS = [
    ([3], 10, "0,3,6,9,10"), ([4, 3], 10, "0,4,7,10"),
    ([7, 4], 10, "Overflow(1)"), ([MOST, MOST], 10, "Overflow(0)"), ([4, MOST], 10, "Overflow(1)"),
]

# Rectangles, and whether the rectangle 2,2,2,2 precedes them.
PRECEDES = [((4, 2, 1, 1), True), ((0, 4, 4, 1), True), ((4, 1, 1, 1), True), ((1, 3, 1, 1), False), ((0, 0, 8, 2), False)]

ALL = [(0, 0, 4, 4)]
TILES = [(0, 0, 2, 2), (2, 0, 2, 2), (0, 2, 2, 2), (2, 2, 2, 2)]
HALVES = [(0, 0, 4, 2), (0, 2, 4, 2)]
TURNED = HALVES[::-1]
SIDES = [(0, 0, 2, 4), (2, 0, 2, 4)]
OFF_LINES = [(0, 0, 3, 4), (3, 0, 1, 4)]
LOW = [(0, 0, 4, 3)]
SUBPICS, TILE_SPLIT, SLICE_COVER, SLICE_SPLIT, ORDER = 3, 4, 5, 6, 7

# Slices and subpictures of a picture of 4 times 4 CTUs in four tiles of 2 times 2, and the lowest fault, if there is one.
FAULTS = [
    (TILES, ALL, None),
    (TILES, LOW, SUBPICS),
    (TILES, OFF_LINES, TILE_SPLIT),
    (SIDES[:1], ALL, SLICE_COVER),
    (HALVES, SIDES, SLICE_SPLIT),
    (TURNED, ALL, ORDER),
    (HALVES[:1], LOW, SUBPICS),
    (TURNED, OFF_LINES, TILE_SPLIT),
    (HALVES[:1], SIDES, SLICE_COVER),
    (TURNED, SIDES, SLICE_SPLIT),
]


def bounds(sizes, total):
    """Returns the bounds of tiles of these sizes, the last of which is repeated."""
    found, sizes = [0], list(sizes)
    while found[-1] < total:
        found.append(min(found[-1] + sizes[0], total))
        sizes = sizes[1:] or sizes
    return found


def cut(lines, start, size):
    """Returns the bounds inside a part, counted from its start."""
    return [0, *(line - start for line in lines if start < line < start + size), size]


def parts(lines, start, size):
    """Returns the sizes of the parts into which lines cut a range."""
    inner = cut(lines, start, size)
    return [end - begin for begin, end in zip(inner, inner[1:])]


def entries(columns, rows, slice_, sync):
    """Returns how many CTUs of a slice are in another tile than the one before, or with synchronization in another row (H.266 7.4.8).
    """
    x, y, w, h = slice_
    across, down = parts(columns, x, w), parts(rows, y, h)
    return len(across) * (sum(down) if sync else len(down)) - 1


def lies_in(inner, outer):
    return (outer[0] <= inner[0] and inner[0] + inner[2] <= outer[0] + outer[2]
            and outer[1] <= inner[1] and inner[1] + inner[3] <= outer[1] + outer[3])


def rects(rectangles):
    return ";".join(listed(rectangle) for rectangle in rectangles)


def layout_told(columns, rows, slices, subpics):
    """Returns the expected output for each subpicture of a layout."""
    return " | ".join(subpicture_told(columns, rows, [s for s in slices if lies_in(s, subpic)], subpic) for subpic in subpics)


def subpicture_told(columns, rows, slices, subpic):
    x, y, w, h = subpic
    inside = ";".join(f"{listed(s)}/{entries(columns, rows, s, False)}/{entries(columns, rows, s, True)}" for s in slices)
    alone = [(s[0] - x, s[1] - y, s[2], s[3]) for s in slices]
    return f"{inside} alone {listed(cut(columns, x, w))} {listed(cut(rows, y, h))} {rects(alone)} 0,0,{w},{h}"


def add_layout(calls, columns, rows, slices, subpics, fault=None):
    """Adds a layout of explicit sizes and totals."""
    answer = f"fault {fault}" if fault else layout_told(bounds(*columns), bounds(*rows), slices, subpics)
    sizes = [f"{listed(sizes)}/{total}" for sizes, total in (columns, rows)]
    calls.call(f"layout {' '.join(sizes)} {rects(slices)} {rects(subpics)}", answer)


# A picture of 512 times 512 CTUs with a tile for each, in 1,000 parts: 8 side by side, in 125 rows, of which the last is higher.
PARTS = [(i % 8 * 64, i // 8 * 4, 64, 16 if i // 8 == 124 else 4) for i in range(1000)]
HIGH_PARTS = "0,0,64,4*8*992"
EACH = "1/512 1/512"


def largest(slices, subpics):
    lines = bounds([1], 512)
    return layout_told(lines, lines, slices, subpics)


def add_layouts(calls):
    calls.about("bounds of tile columns and tile rows")
    for sizes, total, answer in BOUNDS:
        calls.call(f"bounds {listed(sizes)}/{total}", answer)
    calls.call("has 3/10 0 3 10 4 11", "true true true false false")
    calls.about("rectangles that may come later")
    for later, answer in PRECEDES:
        calls.call(f"precedes 2,2,2,2 {listed(later)}", str(answer).lower())
    calls.about("layouts: two halves, entry points of one slice, and the lowest fault of several")
    add_layout(calls, ([4], 4), ([4], 4), HALVES, HALVES)
    add_layout(calls, ([3], 3), ([5], 5), [(0, 0, 3, 5)], [(0, 0, 3, 5)])
    add_layout(calls, ([1, 3], 4), ([2, 3], 5), [(0, 0, 4, 5)], [(0, 0, 4, 5)])
    for slices, subpics, fault in FAULTS:
        add_layout(calls, ([2], 4), ([2], 4), slices, subpics, fault)
    calls.about("the largest picture: 1,000 subpictures, 1,000 slices of one, and one slice too few")
    last, short, all_of_it = f"{HIGH_PARTS};0,496,64,16*8*8", f"{HIGH_PARTS};0,496,64,16*8*7", (0, 0, 512, 512)
    calls.sum(f"layout {EACH} {last} {last}", largest(PARTS, PARTS))
    calls.sum(f"layout {EACH} {last} {listed(all_of_it)}", largest(PARTS, [all_of_it]))
    calls.call(f"layout {EACH} {short} {listed(all_of_it)}", f"fault {SLICE_COVER}")


# ---- units that are written

# Units of SPSs, none of which has an emulation byte: of a picture of 64 times 64 samples, of two subpictures side by side, and of the
# right one of them alone.
SPS = [
    "007900030233800000820412003de00300608001",
    "007900030233800000408105534007bc00600c100020",
    "007900030233800000820417f001ef001803040008",
]

# Units of PPSs, none of which has an emulation byte, and their TemporalIds.
PPS = [
    ("00810000410208984080", 0), ("00820000410208984080", 1), ("00870000410208984080", 6),
    ("00810000410208980902", 0), ("00810000204082057a530801", 0), ("008100004102081f584008", 0),
]

# RBSPs of adaptation parameter sets, their TemporalIds, and their units. All except the last need emulation bytes.
APS = [
    # The byte of type and id is one of the zeros.
    ("00000180", 0, "00890000030180"),
    ("0000000180", 1, "008a000003000180"),
    ("2300000000020000030480", 0, "00892300000300000302000003030480"),
    ("42000003", 6, "008f4200000303"),
    ("4740", 0, "00894740"),
]

# Messages, their TemporalIds, and their units.
SEI = [
    ("", 0, "none"),
    ("144=03e80190", 0, "00b9900403e8019080"),
    ("144=03e80190 147=10", 0, "00b9900403e8019093011080"),
    ("147=10", 1, "00ba93011080"),
    ("137=000001", 6, "00bf89030000030180"),
]


def add_sets(calls):
    calls.about("units of parameter sets, and of messages")
    for unit in SPS:
        calls.call(f"sps {unit[4:]}", unit)
    for unit, tid in PPS:
        calls.call(f"pps {tid} {unit[4:]}", unit)
    for rbsp, tid, unit in APS:
        calls.call(f"aps {tid} {rbsp}", unit)
    for messages, tid, unit in SEI:
        calls.call(f"sei {tid} {messages}".strip(), unit)


def add_regions(calls):
    calls.about("regions that are put together, and their tile lines")
    for line, answer in asked_and_answered():
        calls.call(line, answer)


def main():
    calls = Calls()
    for add in (add_bits, add_lists, add_memory, add_streams, add_layouts, add_regions, add_tables, add_rbsps, add_sets):
        add(calls)
    calls.write(CRATE)
    print(f"{len(calls.answered)} lines are answered")


main()
