"""Small VVC streams (H.266, Annex B) with plain pictures, written field by field in the order of the syntax tables of clause 7.3.

Everything that isn't asked for is off, or 0. The pictures have I slices, 8 bits, 4 low bits of the picture order count, and one layer.
"""
from collections import namedtuple

from small_streams import ALF, IDR, IRAP_OR_GDR, LMCS, SCALING, Writer, bits_for, escaped, unit

TRAIL, STSA, IDR_N_LP, CRA = 0, 1, 8, 9
VPS, SPS, PPS, PREFIX_APS, PH, EOS, EOB, SEI = 14, 15, 16, 17, 19, 21, 22, 23
PAYLOAD = b"\x5a\xa7\x80"

# What the SPS switches on, as far as headers depend on it.
Tools = namedtuple("Tools", "alf lmcs scaling chroma", defaults=(0, 0, 0, 0))
# Two ids of sets that a picture header names, and the flag of chroma residual scaling.
Header = namedtuple("Header", "kind pps lsb lmcs scaling residual", defaults=(IDR_N_LP, 0, 0, None, None, 0))


def stream(*nal_units):
    """Returns a byte stream of units."""
    return b"".join(b"\0\0\0\1" + nal_unit for nal_unit in nal_units)


def sps(width, height, ctu=64, tools=Tools(), level=51, window=None, subpics=None, id_length=None, dpb=(0, 0, 0), sublayers=0):
    """Returns an SPS. Subpictures are given by x, y, width and height in CTUs."""
    w = Writer(None)
    w.u(8, 0)
    w.u(3, sublayers)
    w.u(2, tools.chroma)
    w.u(2, bits_for(ctu) - 5)
    w.u(1, 1)
    w.u(7, 1)  # the profile
    w.u(1, 0)
    w.u(8, level)
    w.u(3, 0b100)
    w.zeros()
    w.u(sublayers, 0)
    w.zeros()
    w.u(8, 0)
    w.u(2, 0)
    write_size(w, width, height, window)
    w.u(1, int(subpics is not None))
    if subpics is not None:
        write_subpics(w, width, height, ctu, subpics, id_length)
    w.ue(0)  # the bit depth
    w.u(2, 0)
    w.u(4, 0)
    w.u(5, 0)
    w.u(1 if sublayers else 0, 0)
    for number in dpb:
        w.ue(number)
    write_tools(w, ctu, tools)
    return unit(SPS, 0, w.closed())


def write_size(w, width, height, window):
    """Writes the size of pictures, and their conformance window."""
    w.ue(width)
    w.ue(height)
    w.u(1, int(window is not None))
    for offset in window or ():
        w.ue(offset)


def write_subpics(w, width, height, ctu, subpics, id_length):
    """Writes subpictures that are independent, with ids that are their indices."""
    columns, rows, last = -(-width // ctu), -(-height // ctu), len(subpics) - 1
    w.ue(last)
    if last:
        w.u(2, 0b10)
        for k, (x, y, wide, high) in enumerate(subpics):
            w.u(bits_for(columns) if k > 0 else 0, x)
            w.u(bits_for(rows) if k > 0 else 0, y)
            w.u(bits_for(columns) if k < last else 0, wide - 1 if k < last else 0)
            w.u(bits_for(rows) if k < last else 0, high - 1 if k < last else 0)
    w.ue((id_length or 1) - 1)
    w.u(1, 0)


def write_tools(w, ctu, tools):
    """Writes the SPS from the smallest coding blocks on."""
    w.ue(0)
    w.u(1, 0)
    w.ue(0)
    w.ue(0)
    w.u(tools.chroma, 0)
    w.ue(0)
    w.ue(0)
    w.u(1 if ctu > 32 else 0, 0)
    w.u(3, 0)
    if tools.chroma:
        w.u(2, 0b01)  # one table for all of chroma
        w.se(0)
        w.ue(0)
        w.ue(0)
        w.ue(0)
    w.u(1, 0)
    w.u(1, tools.alf)
    w.u(tools.alf and tools.chroma, 0)
    w.u(1, tools.lmcs)
    w.u(4, 0)
    w.u(1, 1)  # list 1 is list 0
    w.ue(0)
    w.u(7, 0)
    w.ue(5)
    w.u(4, 0)
    w.ue(0)
    w.u(3, 0)
    w.u(3 * tools.chroma, 0)
    w.u(3, 0)
    w.u(1, tools.scaling)
    w.u(7, 0)


def pps(width, height, number=0, qp=26, tid=0, partition=None, window=None):
    """Returns a PPS. `partition` is a function that writes the fields of its partition."""
    w = Writer(None)
    w.u(6, number)
    w.u(4, 0)
    w.u(1, 0)
    write_size(w, width, height, window)
    w.u(2, 0)
    w.u(1, int(partition is None))
    w.u(1, 0)
    if partition:
        partition(w)
    w.u(1, 0)
    w.ue(0)
    w.ue(0)
    w.u(4, 0)
    w.se(qp - 26)
    w.u(3, 0)
    w.u(4 if partition else 0, 0)
    w.u(3, 0)
    return unit(PPS, tid, w.closed())


def partition(ctu, columns, rows, slices, listed=(), across_tiles=0, across_slices=0):
    """Returns a function that writes the tiles, with all sizes explicit, and some slices. `listed` are the fields of the slice list:
    pairs of a code and its number, where `u` is one bit.
    """

    def write(w):
        w.u(2, bits_for(ctu) - 5)
        w.ue(len(columns) - 1)
        w.ue(len(rows) - 1)
        for size in [*columns, *rows]:
            w.ue(size - 1)
        if len(columns) * len(rows) > 1:
            w.u(1, across_tiles)
            w.u(1, 1)
        w.u(1, 0)
        w.ue(slices - 1)
        for code, number in listed:
            w.u(1, number) if code == "u" else getattr(w, code)(number)
        w.u(1 if slices > 1 else 0, across_slices)

    return write


def aps(kind, number, body, tid=0):
    """Returns an adaptation parameter set."""
    return unit(PREFIX_APS, tid, bytes([kind << 5 | number]) + body)


def write_header(w, tools, header):
    """Writes a picture header."""
    irap = int(header.kind in IRAP_OR_GDR)
    w.u(1, irap)
    w.u(1, 0)
    w.u(irap, 0)
    w.u(1, 0)
    w.ue(header.pps)
    w.u(4, header.lsb)
    if tools.lmcs:
        w.u(1, int(header.lmcs is not None))
    if header.lmcs is not None:
        w.u(2, header.lmcs)
        w.u(tools.chroma, header.residual)
    if tools.scaling:
        w.u(1, int(header.scaling is not None))
    if header.scaling is not None:
        w.u(3, header.scaling)


def ph(header, tools=Tools(), tid=0):
    """Returns a PH unit."""
    w = Writer(None)
    write_header(w, tools, header)
    return unit(PH, tid, w.closed())


def slice_unit(header, tools=Tools(), tid=0, inside=False, subpic=None, address=None, alf=None, lmcs=None, scaling=None, qp_delta=0,
               payload=PAYLOAD):
    """Returns a slice, with its picture header inside or not. A subpicture id and an address are given by a number and its bits."""
    w = Writer(None)
    w.u(1, int(inside))
    if inside:
        write_header(w, tools, header)
    for number, bits in filter(None, (subpic, address)):
        w.u(bits, number)
    w.u(int(header.kind in IRAP_OR_GDR), 0)
    if tools.alf:
        w.u(1, int(alf is not None))
        if alf is not None:
            w.u(3, len(alf))
            for number in alf:
                w.u(3, number)
            w.u(2 * tools.chroma, 0)
    for named, used in ((header.lmcs, lmcs), (header.scaling, scaling)):
        if named is not None and not inside:
            w.u(1, used)
    if header.kind not in IDR:
        w.ue(0)
        w.ue(0)
    w.se(qp_delta)
    return unit(header.kind, tid, w.closed()) + payload
