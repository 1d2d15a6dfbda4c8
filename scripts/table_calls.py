"""Lines of crates/vx_calls on structures that are coded by tables. Each structure is written here as its syntax, field by field, and is read
and written by this script alone.
"""
from bit_calls import listed, told


class Refused(Exception):
    """Says why a structure isn't read."""


class Bits:
    """Bits that are read; the items that were read so far, with those of kept fields, and the latest numbers."""

    def __init__(self, data):
        self.bits = "".join(f"{byte:08b}" for byte in data)
        self.at, self.items, self.kept, self.latest = 0, [], [], {}

    def take(self, field, count):
        if len(self.bits) < self.at + count:
            raise Refused(f"Y{field}@{self.at}:Short")
        self.at += count
        return self.bits[self.at - count:self.at]

    def code(self, field):
        """Reads ue(v) (H.266 9.2), and returns its number."""
        ahead = self.bits[self.at:]
        zeros = len(ahead) - len(ahead.lstrip("0"))
        if zeros >= 32:
            raise Refused(f"Y{field}@{self.at}:LongCode")
        if len(ahead) < 2 * zeros + 1:
            raise Refused(f"Y{field}@{self.at}:Short")
        self.at += 2 * zeros + 1
        return int(ahead[:2 * zeros + 1], 2) - 1

    def field(self, field, coding, wanted=None, fault=None, star=False, direct=False):
        """Reads a field: `ue`, `se`, or a number of bits. A value that isn't in `wanted` is a fault. A field in direct style has no
        number.
        """
        start = self.at
        if coding == "ue":
            value = self.code(field)
        elif coding == "se":
            code = self.code(field)
            value = (code + 1) // 2 if code % 2 else -(code // 2)
        else:
            value = int("0" + self.take(field, coding), 2)
        if wanted is not None and value not in wanted:
            self.at = start
            raise Refused(fault(value) if fault else out_of_range(field, start))
        self.items.append((field, value))
        if not star:
            self.kept.append((field, value))
        self.latest[field] = 0 if direct else value
        return value

    def fill(self, field):
        """Adds a field that is absent, and is 0 among the kept ones."""
        self.kept.append((field, 0))

    def gap(self, field, first, cause):
        """Reads bits up to the byte boundary: `first`, if it isn't empty, and zeros."""
        if first and self.at == len(self.bits):
            raise Refused(f"Y{field}@{self.at}:Short")
        end = (self.at + len(first) + 7) // 8 * 8
        if self.bits[self.at:end] != first.ljust(end - self.at, "0"):
            raise Refused(f"Y{field}@{self.at}:{cause}")
        if cause == "BadTrailing" and end < len(self.bits):
            raise Refused(f"Y{field}@{self.at}:{cause}")
        self.at = end


def out_of_range(field, place):
    return f"Y{field}@{place}:OutOfRange"


def small(bits):
    width_minus1 = bits.field(1, 2)
    bits.field(2, width_minus1 + 1, range(13 - width_minus1))
    if bits.field(3, 1):
        start = bits.at
        bits.field(4, "ue", range(8, 65, 8), lambda value: "L6" if value > 64 else out_of_range(4, start))
        for _ in range(2):
            bits.field(5, "se", range(-2, 3), lambda value: "P4", star=True)
        other = 7
    else:
        other = bits.field(6, 3)
    bits.fill(7)
    if other == 5:
        raise Refused(out_of_range(8, bits.at))
    bits.gap(9, "", "BadAlignment")
    bits.field(9, "ue", range(2))


def ends(bits):
    bits.field(10, 1)
    bits.gap(11, "1", "BadAlignment")
    bits.gap(12, "1", "BadTrailing")


def places(bits):
    count = bits.field(13, 3)
    bits.field(14, 4, range(count))
    bits.field(15, "ue", range(count - 1), lambda value: "L9")


def ids(bits):
    if bits.field(14, 4) > 2:
        raise Refused("D5:0:0")


def plain(bits):
    for width in range(1, 9):
        bits.field(700 + width, width)
    for _ in range(8):
        bits.field(709, 1)
    for _ in range(4):
        bits.field(717, "ue")
        bits.field(717, "se")
    for width in range(1, 9):
        bits.field(700 + width, width)
    for _ in range(8):
        bits.field(709, 1)


def turns(bits):
    for turn in range(bits.field(16, "ue", star=True)):
        bits.field(17, turn + 1)
    if bits.field(18, 1):
        bits.field(17, 3)


def composite(bits):
    shares = bits.field(30, 3, range(5))
    left = bits.field(31, 5)
    mode = bits.field(32, 1)
    for _ in range(shares):
        left = max(left - bits.field(33, "ue", range(left), direct=True) - 1, 0)
    if mode:
        bits.field(34, shares)
    bits.field(35, "ue", star=True)
    bits.gap(36, "1", "BadTrailing")


STRUCTURES = {"small": small, "ends": ends, "places": places, "ids": ids, "plain": plain, "turns": turns, "composite": composite}
TABLES = ("small", "ends", "places", "ids", "plain")

# What is read: the structure, the bytes, and why they are refused, worked by hand. None of it comes from the reader above.
READ = [
    ("small", "68929040", None),
    ("small", "689300", "P4"),
    ("small", "689380", "P4"),
    ("small", "681240", "L6"),
    ("small", "6c", "Y4@5:OutOfRange"),
    ("small", "68d0", "Y4@5:OutOfRange"),
    ("small", "68", "Y4@5:Short"),
    ("small", "680000000000", "Y4@5:LongCode"),
    ("small", "e8", "Y2@2:OutOfRange"),
    ("small", "e40080", None),
    ("small", "e540", "Y8@10:OutOfRange"),
    ("small", "e420", "Y9@10:BadAlignment"),
    ("small", "e400", "Y9@16:Short"),
    ("small", "e40060", "Y9@16:OutOfRange"),
    ("small", "", "Y1@0:Short"),
    ("ids", "2f", None),
    ("ids", "30", "D5:0:0"),
    ("ends", "c080", None),
    ("ends", "c08000", "Y12@8:BadTrailing"),
    ("ends", "c0", "Y12@8:Short"),
    ("ends", "80", "Y11@1:BadAlignment"),
    ("plain", "ff" * 20, None),
    ("places", "0000", "Y14@3:OutOfRange"),
    ("places", "2100", "L9"),
    ("places", "2200", "Y14@3:OutOfRange"),
    ("places", "4300", None),
    ("places", "4280", "L9"),
    ("places", "4400", "Y14@3:OutOfRange"),
    ("places", "ec80", None),
    ("turns", "a0", None),
    ("turns", "7b60", None),
    ("turns", "7b", "Y17@7:Short"),
    ("composite", "499178", None),
    ("composite", "4990e0", "Y33@14:OutOfRange"),
]

# What is written: the structure, the items, and the bytes with a one and zeros after them, or none; worked by hand.
WRITTEN = [
    ("small", "1=1 2=2 3=1 4=8 5=-2 5=2 9=1", "68929050"),
    ("small", "1=4", None),
    ("small", "2=0", None),
    ("small", "1=-1", None),
    ("ends", "10=1", "c08080"),
    ("turns", "16=0 18=0", "a0"),
    ("turns", "16=2 17=1 17=2 18=1 17=5", "7b60"),
    ("composite", "30=2 31=9 32=1 33=3 33=1 34=3 35=0", "49917880"),
    ("composite", "30=2 31=9 32=1 33=0 33=6 34=3 35=0", "49cfe080"),
]

# What is kept of items, worked by hand.
KEPT = [
    ("small", "1=1 2=2 3=1 4=8 5=-2 5=2 9=1", "1=1 2=2 3=1 4=8 7=0 9=1"),
    ("turns", "16=0 18=0", "18=0"),
    ("turns", "16=2 17=1 17=2 18=1 17=5", "17=1 17=2 18=1 17=5"),
    ("composite", "30=2 31=9 32=1 33=3 33=1 34=3 35=0", "30=2 31=9 32=1 33=3 33=1 34=3"),
]

# Other shares for the fields of the two tables, and the items that they are composed to, if any.
SHOWN = "30=2 31=9 32=1 34=3 35=0"
REWRITTEN = [
    ("33=0 33=6", "30=2 31=9 32=1 33=0 33=6 34=3 35=0"),
    ("33=9 33=0", None),
    ("33=0", None),
    ("35=0 33=6", None),
]

SUM, TURN = 901, 900
MIXED = [1, 3, 7, SUM]
STARRED_TOO = [1, 2, 3, 4, 5, 6, 7, SUM]

# The table or the tables, the given numbers, the shown ones, and whether the fields depend on these alone.
DEPENDS = [
    # after blocks in blocks
    ("deep", [], [3], True),
    # all; the starred ones too; these from the scope; not given; no name
    ("mixed", [102], MIXED, True),
    ("mixed", [102], STARRED_TOO, False),
    ("mixed", [4, 102], STARRED_TOO, True),
    ("mixed", [], MIXED, False),
    ("mixed", [102], [1, 3, 7], False),
    ("width", [], [3], False),
    ("range", [], [3], False),
    ("condition", [], [3], False),
    ("repeat", [], [3], False),
    ("counter", [], [3, TURN], False),
    ("name", [], [3, SUM], False),
    # only within a block
    ("within", [], [1, 3, 4], False),
    # read before it is given, and given before
    ("before", [], [3, 4], False),
    ("before", [4], [3], True),
    ("on-the-flag", [2], [3, SUM], True),
    ("on-the-flag", [], [2, 3, SUM], True),
    ("on-the-flag", [], [3, SUM], False),
    ("behind-a-condition", [1], [2, 3, SUM], False),
    ("in-turns", [2, 4, 102], MIXED, True),
    ("in-turns", [102], MIXED, False),
]

# The same, and whether the shown fields are those without a star.
STARS = [
    ("mixed", [102], MIXED, True),
    ("mixed", [102], [1, 3, SUM], False),
    ("mixed", [102], [1, 2, 3, 7, SUM], False),
    ("in-kept-turns", [102], MIXED, True),
    ("in-kept-turns", [2, 102], MIXED, False),
]


def items(found):
    return " ".join(f"{field}={value}" for field, value in found)


def read(structure, data):
    """Reads a structure, and returns the bits read and why it is refused, or None."""
    bits = Bits(data)
    try:
        STRUCTURES[structure](bits)
    except Refused as refused:
        return bits, str(refused)
    return bits, None


def add_read(calls):
    calls.about("structures that are read by their tables, and passed over; with the latest numbers of some fields")
    for structure, digits, by_hand in READ:
        bits, refusal = read(structure, bytes.fromhex(digits))
        assert refusal == by_hand, (structure, digits, refusal)
        word = digits or "-"
        end = f"{refusal or 'ok'}@{bits.at}"
        if structure in TABLES:
            calls.call(f"value {structure} {word}", refusal or items(bits.items))
        calls.call(f"read {structure} {word}", f"{items(bits.items)} {end}".strip())
        calls.call(f"pass {structure} {word}", end)
        if not refusal:
            latest = "".join(f" {field}:{bits.latest[field]}" for field in bits.latest)
            asked = "".join(f" {field}" for field in bits.latest)
            calls.call(f"read {structure} {word}{asked}", f"{items(bits.items)} {end}{latest}")
            calls.call(f"pass {structure} {word}{asked}", f"{end}{latest}")


def add_written(calls):
    calls.about("structures that are written by their tables, sifted and rewritten")
    for structure, given, by_hand in WRITTEN:
        calls.call(f"write {structure} {given}", by_hand or "no value")
        if by_hand:
            assert items(read(structure, bytes.fromhex(by_hand))[0].items) == given, given
    for structure, given, by_hand in KEPT:
        calls.call(f"keep {structure} {given}", by_hand)
    for others, by_hand in REWRITTEN:
        calls.call(f"rewrite composite 30,31,32,34,35,36 {SHOWN} / {others}", by_hand or "no value")


def add_claims(calls):
    calls.about("what fields of tables depend on, and which have no star")
    for verb, rows in (("depends", DEPENDS), ("stars", STARS)):
        for name, given, shown, holds in rows:
            calls.call(f"{verb} {name} {listed(given)} {listed(shown)}", str(holds).lower())


def add_tables(calls):
    add_read(calls)
    add_written(calls)
    add_claims(calls)
