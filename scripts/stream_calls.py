"""Lines of crates/vx_calls on byte streams and their units, worked by hand from the format (H.266 Annex B)."""
from bit_calls import joined, listed, spelled, told, unit_told

# 64 times 64 samples, 4:0:0, one picture: an SPS, a PPS and a slice.
GRAY = bytes.fromhex("00000001007900030233800000820412003de003006080010000000100810000410208984080000000010041c4185aa780")
GRAY_UNITS = [(4, 20), (28, 10), (42, 7)]

# Streams, the place and the length of each unit, and the rule of framing that refuses them with its byte, if one does.
STREAMS = [
    (b"", [], None),
    (bytes([0, 0, 0]), [], None),
    (GRAY, GRAY_UNITS, None),
    # Zeros around the units belong to none of them.
    (bytes([0, 0, 0, 0, 0, 1, 0, 65, 128, 0, 0, 0, 0, 1, 0, 65, 5, 0, 0]), [(6, 3), (14, 3)], None),
    (bytes([0, 0, 1, 0, 65, 128, 0, 0, 1, 0, 66]), [(3, 3), (9, 2)], None),
    # A byte that is no start code.
    (bytes([65, 0, 0, 1]), [], (1, 0)),
    (bytes([0, 1]), [], (1, 1)),
    (bytes([0, 0, 2]), [], (1, 2)),
    (bytes([0, 0, 1, 0, 65, 128, 0, 0, 0, 5]), [(3, 3)], (1, 9)),
    # A header that can't be read.
    (bytes([0, 0, 0, 0, 1, 66]), [], (3, 5)),
    (bytes([0, 0, 1, 0, 0, 1, 0, 65]), [], (3, 3)),
    (bytes([0, 0, 1, 0, 65, 0, 0, 1, 128, 65, 0, 0, 1, 7]), [(3, 2)], (3, 8)),
    (bytes([0, 0, 1, 0, 64, 1]), [], (3, 3)),
    (bytes([0, 0, 1]), [], (3, 3)),
    # A byte that emulation prevention rules out; a unit may end with an emulation byte.
    (bytes([0, 0, 1, 0, 121, 0, 0, 2]), [], (2, 7)),
    (bytes([0, 0, 1, 0, 65, 0, 0, 3, 4, 0, 0, 2]), [], (2, 8)),
    (bytes([0, 0, 1, 0, 65, 0, 0, 3]), [(3, 5)], None),
    (bytes([0, 0, 1, 0, 65, 0, 0, 3, 3, 0, 0, 0, 1, 0, 65, 7]), [(3, 6), (13, 3)], None),
    (bytes([0, 0, 1, 0, 65, 0, 0, 3, 0, 0, 1, 0, 65, 0, 0, 3, 1, 0, 0, 2]), [(3, 5)], (2, 19)),
    # A bad header comes before bad emulation.
    (bytes([0, 0, 1, 128, 65, 0, 0, 2]), [], (3, 3)),
]

LIMIT = 2 ** 23
FRONT = bytes([0, 0, 1, 0, 65])

# A unit of a little more than 2^23 bytes, with a violation in its last bytes: the zeros before the unit, how many bytes beyond 2^23
# come before the last ones, these, the place in them of the byte that is refused, if one is, and the size of the pieces of the stream.
TAILS = [
    (0, 1, bytes([7]), None, 65_536),
    (0, 0, bytes([0, 0, 2]), 2, 8_388_611),
    (0, 9, bytes([0, 0, 2, 0, 0, 2]), 2, 65_536),
    (0, 3, bytes([0, 0, 3, 4]), 3, 8_388_615),
    (70_000, 7, bytes([0, 0, 3, 0, 0, 3, 5]), 6, 65_536),
]

# Units, and the place of the byte that breaks a rule of emulation prevention, if one does.
EMULATIONS = [
    ([], None), ([0, 0, 3], None), ([0, 0, 3, 3], None), ([0, 0, 4, 0, 1], None), ([0, 0, 0], 2), ([7, 0, 0, 1], 3), ([0, 0, 2], 2),
    ([0, 0, 3, 4], 3), ([0, 0, 3, 0, 0, 3, 0, 0, 1], 8),
]

# Bytes, their unit, and the place in it after each of the bytes.
ESCAPED = [
    ([], [], []),
    ([5], [5], [1]),
    ([0, 0, 4], [0, 0, 4], [1, 2, 3]),
    ([0, 0, 1], [0, 0, 3, 1], [1, 2, 4]),
    ([0, 0, 3], [0, 0, 3, 3], [1, 2, 4]),
    ([0, 0, 0, 0, 1], [0, 0, 3, 0, 0, 3, 1], [1, 2, 4, 5, 7]),
    ([9, 0, 0, 0, 2, 0, 3], [9, 0, 0, 3, 0, 2, 0, 3], [1, 2, 3, 5, 6, 7, 8]),
]

# Units and their headers.
HEADERS = [
    ("007901", "reserved=0 layer=0 type=15 tid=0"),
    ("7fff", "reserved=1 layer=63 type=31 tid=6"),
    ("8079", "none"), ("0078", "none"), ("00", "none"),
]

# The read of GRAY that fails, in pieces of 16 bytes, and how many units are returned before.
FAILING = [(0, 0), (1, 0), (2, 1), (3, 2), (4, 2)]

# What comes before the last unit, and its length: its end is at a read's end or near it, or the unit comes in many reads.
LAST_UNITS = [
    (b"", 65_532), (b"", 65_533), (b"", 65_534), (b"", 200_000), (GRAY, 65_536), ((b"\0", 10_000_000), 100),
]

# The lengths of units. Some are kept where they were read, and others are moved as room is made.
LENGTHS = [100, 40_000, 3, 300_000, 7, 70_000, 1_000, 20]


def long_unit(length):
    """Returns a unit of this length after a start code, as parts."""
    return FRONT, (b"\xff", length - 2)


def stream_told(stream, units, ends):
    """Returns the expected output for the units of a stream, and for its end as often as it is asked for."""
    return " ".join([*(unit_told(stream, *unit) for unit in units), *ends])


def end_of(refused):
    """Returns the expected output for the end of a stream."""
    return "F{}@{}".format(*refused) if refused else "end"


def add_split(calls):
    calls.about("streams that are split as they come, in pieces of several sizes")
    for stream, units, refused in STREAMS:
        for size in (1, 2, 3, 5, 64):
            calls.call(f"split {size} {spelled(stream)}", stream_told(stream, units, [end_of(refused)]))
    calls.about("a unit whose end isn't seen yet, and a refusal that is given again")
    stream = bytes([0, 0, 1, 0, 65, 128, 0, 0, 0, 7, 0, 0, 1])
    calls.call(f"waits 8,1,1,3 {spelled(stream)}", f". {unit_told(stream, 3, 3)} . F1@9 F1@9 F1@9")
    calls.about("units of 2^23 bytes and more, and what these are refused for")
    parts = long_unit(LIMIT)
    calls.call(f"split {2 ** 20} {spelled(*parts)}", stream_told(joined(*parts), [(3, LIMIT)], ["end"]))
    calls.call(f"split {2 ** 20} {spelled(*long_unit(LIMIT + 1))}", "L1")
    for zeros, over, tail, fault, size in TAILS:
        parts = (b"\0", zeros), *long_unit(LIMIT + over), tail
        place = zeros + 3 + LIMIT + over
        calls.call(f"split {size} {spelled(*(parts if zeros else parts[1:]))}", "L1" if fault is None else f"F2@{place + fault}")


def add_taken(calls):
    calls.about("units that are taken from a source, in pieces of several sizes; each ending is asked for twice")
    for stream, units, refused in STREAMS:
        for piece in (1, 60, 1_000_000):
            ends = [end_of(refused)] * 2
            calls.call(f"take {len(units) + 2} {piece} - {spelled(stream)}", stream_told(stream, units, ends))
    again = bytes([0, 0, 1, 0, 65, 128, 0, 0, 0, 5, 0, 0, 1])
    calls.call(f"take 3 60 - {spelled(again)}", stream_told(again, [(3, 3)], ["F1@9"] * 2))
    calls.about("a read that fails")
    for call, seen in FAILING:
        calls.call(f"take 4 16 {call} {spelled(GRAY)}", stream_told(GRAY, GRAY_UNITS[:seen], ["failed"]))
    calls.about("units of any length, some behind others")
    for before, length in LAST_UNITS:
        parts = before, *long_unit(length)
        stream = joined(*parts)
        units = [*(GRAY_UNITS if before == GRAY else []), (len(joined(before)) + 3, length)]
        calls.call(f"take {len(units) + 1} 1000000 - {spelled(*parts)}", stream_told(stream, units, ["end"]))
    for piece in (5_000, 60_000, 1_000_000):
        parts, units, place = [], [], 0
        for k, length in enumerate(LENGTHS):
            parts += [FRONT, (bytes([31 * (k + 1) % 256]), length - 2)]
            units.append((place + 3, length))
            place += 3 + length
        calls.call(f"take 9 {piece} - {spelled(*parts)}", stream_told(joined(*parts), units, ["end"]))


def add_units(calls):
    calls.about("headers of units")
    for unit, answer in HEADERS:
        calls.call(f"header {unit}", answer)
    calls.about("emulation bytes")
    for unit, place in EMULATIONS:
        calls.call(f"emulation {spelled(bytes(unit))}", "none" if place is None else str(place))
    for data, unit, places in ESCAPED:
        calls.call(f"escape {spelled(bytes(data))}", told(bytes(unit)))
        calls.call(f"unescape {spelled(bytes(unit))}", told(bytes(data)))
        calls.call(f"places {spelled(bytes(unit))}", listed(places))
    data, unit = (bytes([0, 0, 1]), 200_000), (bytes([0, 0, 3, 1]), 200_000)
    calls.call(f"escape {spelled(data)}", told(joined(unit)))
    calls.call(f"emulation {spelled(unit)}", "none")
    calls.call(f"unescape {spelled(unit)}", told(joined(data)))
    calls.about("units that are written to a sink that is full at last")
    calls.call("units 11 3 7 004101/0203 0042/04", "ok:000000010041010203 failed:0000000100410102030000")


def add_streams(calls):
    add_split(calls)
    add_taken(calls)
    add_units(calls)
