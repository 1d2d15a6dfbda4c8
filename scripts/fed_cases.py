"""Worked cases of `show`: streams that are accepted, and streams that break a rule, most of them with their last unit.

The rules are those on the order of units, on sets that don't make up a picture, and on what isn't supported. Units are written in
hexadecimal without their start codes of three bytes. A unit may come with the line that is shown after its own: that of a set, or of the
picture that it completes. The first four streams with missing sets are two of an independent model, each without a unit.
"""
from case_lines import Expected
from told_cases import picture_line, pps_line, say_in_pieces, sps_line, told
from worked_cases import refused

# A picture of 64 by 64 samples, with its header in its slice: of picture order count 0, and of 5.
ONE_SPS = ("007900030233800000820412003de00300608001", sps_line())
ONE_PPS = ("00810000410208984080", pps_line())
ONE, FIVE = ("0041c4185aa780", picture_line()), ("0041c5585aa780", picture_line(0, 5))

# Two of them side by side.
TWO_SPS = ("00790003023380000040810553" "4007bc00600c100020", sps_line(128, 64, 2))
TWO_PPS = ("00810000204082057a530801", pps_line(2, 2))
HEADER, LEFT = "00998840", "0041185aa780"
RIGHT = ("0041585aa780", picture_line(slices=2))
TRAILING, EOS = "0001185aa780", "00a9"
ONES, TWOS = [ONE_SPS, ONE_PPS], [TWO_SPS, TWO_PPS, HEADER]

# Four of them in a row.
FOUR = [("00790003023380000020204149091a4007bc00600c100020", sps_line(256, 64, 4)), ("008100001010208127ecc20040", pps_line(4, 0)), HEADER]


def again(unit, number, poc=0):
    """Returns a unit that completes a picture of another number, with one subpicture and one slice."""
    return unit[0], picture_line(number, poc)


def aps(digits):
    """Returns an adaptation parameter set, with its line."""
    first = bytes.fromhex(digits)[2]
    return digits, f'{{"aps":{first % 32},"kind":{first >> 5}}}'


def spelled(nal_units):
    """Returns the bytes of units."""
    return [bytes.fromhex(unit if isinstance(unit, str) else unit[0]) for unit in nal_units]


def lines_of(nal_units):
    """Returns the lines that are shown of units."""
    parts, offset = [], 0
    for unit, own in zip(nal_units, spelled(nal_units)):
        parts.append((offset + 3, len(own), own[1] >> 3, own[1] % 8 - 1))
        parts += [] if isinstance(unit, str) else [unit[1]]
        offset += 3 + len(own)
    return told(*parts)


def shown(cases, nal_units, rule=None, at=None):
    """Adds a case of a stream: with all its lines, or with the rule that it breaks at unit `at`, by default its last one. `rule` is the
    letter and number of the rule, and what else its line has.
    """
    name = cases.name(b"".join(b"\0\0\1" + unit for unit in spelled(nal_units)))
    if rule is None:
        return say_in_pieces(cases, f"show {name}", Expected(out=lines_of(nal_units)))
    at = len(nal_units) - 1 if at is None else at
    code, *more = rule.split()
    line = " ".join([f"{code} source 0 unit {at}", *more])
    return say_in_pieces(cases, f"show {name}", refused(line, lines_of(nal_units[:at])))


def add_taken(cases):
    """Adds streams that are accepted to their end."""
    cases.about("show: sets without a picture; two pictures; ends of sequence; another SPS where a sequence starts; what is passed over")
    shown(cases, [])
    shown(cases, ONES)
    shown(cases, [*ONES, ONE, again(FIVE, 1, 5)])
    shown(cases, [*ONES, FIVE, EOS, EOS, again(ONE, 1)])
    shown(cases, [*TWOS, LEFT, RIGHT])
    shown(cases, [*ONES, FIVE, *TWOS, LEFT, (RIGHT[0], picture_line(1, slices=2))])
    shown(cases, [*TWOS, LEFT, "418180", "00a180", RIGHT])


def add_units_refused(cases):
    """Adds streams whose last unit breaks a rule on the order of units."""
    cases.about("show: sets that haven't come; a unit of layer 1; a slice without a picture header; a set between slices")
    shown(cases, [ONE], "S1 PPS 0")
    shown(cases, [ONE_PPS, ONE], "S1 SPS 0")
    shown(cases, ["01a180"], "P1")
    shown(cases, [TWO_SPS, TWO_PPS, LEFT], "S2")
    shown(cases, [*TWOS, LEFT, TWO_PPS], "S3")
    shown(cases, [*TWOS, LEFT, TWO_SPS], "S3")
    cases.about("show: the second slice first, a further header, and an end of sequence, where a slice is missing; a header inside a slice")
    shown(cases, [*TWOS, RIGHT], "S4")
    shown(cases, [*TWOS, HEADER], "S4")
    shown(cases, [*TWOS, LEFT, EOS], "S4")
    shown(cases, [*ONES, *TWOS, ONE], "S4")
    cases.about("show: a trailing picture first; a slice of another type, and of another TemporalId; sets of other sizes; no payload")
    shown(cases, [*ONES, "0001c4185aa780"], "S6")
    shown(cases, [*TWOS, LEFT, "0039585aa780"], "S8")
    shown(cases, [*TWOS, LEFT, "0042585aa780"], "S9")
    shown(cases, [ONE_SPS, ("00810000204082057a530801", pps_line(2, 2)), HEADER], "S10")
    shown(cases, [*ONES, "0041c418"], "S11")
    cases.about("show: a picture header inside one of two slices; a unit of layer 1 between slices")
    shown(cases, [TWO_SPS, TWO_PPS, "0041c4205a"], "S15")
    shown(cases, [*TWOS, LEFT, "014180"], "P1")
    cases.about("show: behind a picture: a further slice; another SPS, where none starts; a trailing picture; and slices missing at the end")
    shown(cases, [*TWOS, LEFT, RIGHT, LEFT], "S2")
    shown(cases, [*ONES, ONE, *TWOS, TRAILING], "S7")
    shown(cases, [*TWOS, LEFT, RIGHT, EOS, HEADER, TRAILING], "S6")
    shown(cases, [*TWOS, LEFT], "S4", 4)
    shown(cases, [*TWOS, LEFT, RIGHT, HEADER], "S4", 6)


def add_missing(cases):
    """Adds slices whose header names an adaptation parameter set that hasn't come."""
    cases.about("show: no filter for chroma of a slice, no one for luma of a further slice, no luma mapping, no scaling lists")
    first = [("00795009feb840000320c548c6f894b09a83115492225c112bdd95de65eb2274ed512c35fa5414200cc1457db8ae43291e7c2840",
              '{"ctu":32,"height":48,"sps":5,"subpictures":2,"width":24}'),
             ("00820541906243a2587f03a59280", '{"columns":1,"pps":1,"rows":1,"slices":2,"sps":5}')]
    behind = [aps("008902010103030100020003"), aps("0091210680"), aps("00892303"), aps("009123000004020301020140"),
              aps("009221b84c6603"), "00998421110c4c", "00496252e53b805af043e5e8334a5b531580", "0049584fece429044dcf008001",
              "00de010402ff"]
    shown(cases, [*first, aps("00890140034401"), *behind], "S1 ALF 6", 9)
    shown(cases, [*first, aps("009106f047efcaebd57c2c01"), *behind], "S1 ALF 1", 10)
    first = [("0079f00902026c036fe095c1cb175a8060008058809166cb66480a94cac02cfcc6a9488bd7ce5151890c30dc10",
              '{"ctu":32,"height":144,"sps":15,"subpictures":1,"width":176}'),
             ("008203c02c404880695d6de02441432940", '{"columns":3,"pps":0,"rows":3,"slices":1,"sps":15}'),
             ("0082ffc02c4048da4601a575b6d812e305142068d2e0a1916000000300ea3a000c02cd29",
              '{"columns":3,"pps":63,"rows":3,"slices":1,"sps":15}')]
    mapping = [aps("008a2261c1f20ef6eb2b99ff"), aps("0092220101")]
    between = [aps("00922144feedbbef9ef4d303"), aps("008a436401")]
    behind = [aps("0092415080"), "009ad4000e7b49a8000733b0", "0042169810040140"]
    shown(cases, [*first, *between, aps("008a4203"), *behind], "S1 LMCS 2", 8)
    shown(cases, [*first, *mapping, *between, *behind], "S1 SCALING 2", 9)


def add_layouts(cases):
    """Adds sets that make up no picture."""
    cases.about("show: a slice of a subpicture that there isn't")
    named = [("007900030233800000408105529001ef001803040008", sps_line(128, 64, 2)), TWO_PPS, HEADER, "00414c5aa780"]
    shown(cases, named, "S5")
    cases.about("show: CTUs of two sizes; ids in the wrong set; subpictures one over the other; a tile that a subpicture cuts; slices one "
                "over the other; a slice of two subpictures; a slice before its left neighbour")
    for fault, pictures, of_pictures, tiles, of_tiles in (
            (1, "007900030233800000408104800f7800c018200040", sps_line(128), "008100002040820322984008", pps_line(1, 0)),
            (2, "007900030233800000408105534007bc00600c100020", sps_line(128, 64, 2), "008100002040821555e94c2004", pps_line(2, 2)),
            (3, "007900030233800000408105514007bc00600c100020", sps_line(128, 64, 2), "00810000204082057a530801", pps_line(2, 2)),
            (4, "007900030233800000608105535001ef001803040008", sps_line(192, 64, 2), "00810000304082056acc2004", pps_line(2, 0)),
            (5, "0079000302338000002020412003de003006080010", sps_line(256), "008100001010208127e9e4b30801", pps_line(4, 3)),
            (6, "007900030233800000408105534007bc00600c100020", sps_line(128, 64, 2), "00810000204082057ab08010", pps_line(2, 1)),
            (7, "0079000302338000006080812003de003006080010", sps_line(192, 128), "00810000304040816be89c9790c20040",
             '{"columns":3,"pps":0,"rows":2,"slices":4,"sps":0}')):
        shown(cases, [(pictures, of_pictures), (tiles, of_tiles), HEADER], f"S12 layout {fault}")


def add_profiles(cases):
    """Adds sets that aren't supported."""
    cases.about("show: a unit of a further layer; an SPS of a VPS, without profile, in 4:2:2, of 11 bits, with palettes, of several sizes, "
                "with virtual boundaries, with an extension")
    for number, unit in enumerate((
            "01a180", "007901030233800000820412003de00300608001", "007900020233800000820412003de00300608001",
            "007900130233800000820412003db07c0600c1000040", "0079000302338000008204108003de003006080010",
            "007900030233800000820412003de00300608801", "007900030233800060410209001ef0018030400080",
            "007900030233800000820412003de00300608021", "007900030233800000820412003de00300608003"), 1):
        shown(cases, [unit], f"P{number}")
    cases.about("show: a PPS of slices of several types, with a scaling window, of slices in raster order, with pictures that wrap around, "
                "with an extension; an APS of an id that its type doesn't have; 1,001 slices")
    for number, unit in enumerate((
            "00810020204082057a530801", "00810000204082857a530801", "008100002040820578530801", "0081000041020898b2",
            "00810000204082057a530803", "00890880"), 10):
        shown(cases, [unit], f"P{number}")
    shown(cases, ["0081000010101020b5003e9640"], "L5")


def add_long_messages(cases):
    """Adds as many bytes of messages as are kept, and more."""
    cases.about("show: messages of 65,536 bytes, and of one more, in one unit and in two")
    start, end = b"\0\0\1\0\xb9\x93", b"\x80"
    longest = start, (b"\xff", 255), b"\xfe", (b"\x55", 65_279), end
    lines = told((3, 65_539, 23))
    for source, expected in (((start, (b"\xff", 256), b"\0", (b"\x55", 65_280), end), refused("L10 source 0 unit 0")),
                             (longest, Expected(out=lines)),
                             ((*longest, start, b"\1\x55", end), refused("L10 source 0 unit 1", lines))):
        say_in_pieces(cases, f"show {cases.name(source)}", expected)


def long_picture(last):
    """Returns a stream of a picture of four slices, whose last slice has `size` bytes, and the lines of the sets and of each slice."""
    front = b"".join(b"\0\0\1" + unit for unit in spelled(FOUR))
    parts, offset, lines = [front], len(front), []
    for first, count in ((0x0C, 2**23), (0x2C, 2**23), (0x4C, 2**23), (0x6C, last)):
        parts += [bytes([0, 0, 1, 0, 0x41, first]), (b"\x5a", count - 3)]
        lines.append((offset + 3, count, 8))
        offset += 3 + count
    return tuple(parts), lines


def add_long_pictures(cases):
    """Adds a picture with as many bytes as a picture may have, and one with one more."""
    cases.about("show: pictures of four slices, of as many bytes as a picture can have, and of one more")
    for last in (2**23 - 4, 2**23 - 3):
        source, lines = long_picture(last)
        whole = lines_of(FOUR) + told(*lines, picture_line(slices=4))
        expected = Expected(out=whole) if last == 2**23 - 4 else refused("L2 source 0 unit 6", lines_of(FOUR) + told(*lines[:3]))
        say_in_pieces(cases, f"show {cases.name(source)}", expected, ((), ("pieces all 60 65537",)))


def add_fed(cases):
    add_taken(cases)
    add_units_refused(cases)
    add_missing(cases)
    add_layouts(cases)
    add_profiles(cases)
    add_long_messages(cases)
    add_long_pictures(cases)
