"""Lines of crates/vx_vectors on reference picture lists, their structures, and prediction weights, with their expected output.

HEADERS, TABLES and WEIGHTS are of an independent model of the format, except one line of HEADERS and one of WEIGHTS. These and the other
lines were worked by hand. The longest ones are composed here, bit by bit in the order of the syntax tables of clauses 7.3.9 and 7.3.10.
"""
from bit_text import Bits, hexadecimal, refused_syntax

# Lists of headers. A line `sps` has sps_long_term_ref_pics_flag, whether there are weights, the bits of ph_pic_order_cnt_lsb,
# pps_rpl1_idx_present_flag, and the items of the SPS's structures. The lines after it have the bits of lists as headers have them, the
# items, and the entries of list 0 and of list 1: AbsDeltaPocSt with the sign, or the low bits and the cycle of the high ones.
HEADERS = """\
sps 0 0 8 1 : 179=0 179=0
11 301=0 301=0 = -|-
sps 0 0 16 0 : 179=3 301=1 304=0 305=0 301=2 304=32767 305=0 304=1 305=1 301=2 304=1 305=1 304=32767 305=1 179=2 301=1 304=2 305=1 301=2 304=2 305=0 304=0 305=1
101 307=1 308=1 = s+32768,s-2|s+3,s-1
sps 1 0 16 1 : 179=1 301=1 302=0 303=1 304=2 305=1
011 307=0 301=0 307=1 = -|s-3
sps 1 1 8 0 : 179=1 301=2 302=0 303=0 306=255 303=1 304=1 305=0
10100110 307=1 310=0 310=1 311=5 = l255,s+1|l255/5,s+1
100 307=1 310=0 310=0 = l255,s+1|l255,s+1
001010011010100001100010 307=0 301=1 303=1 304=5 305=1 301=1 303=0 309=49 310=0 = s-6|l49
sps 1 1 16 0 : 179=0
01101010000000000000000101000000111010101010101 301=2 303=0 303=1 304=1 305=0 309=2 310=1 311=116 301=1 303=1 304=1 305=1 = l2/116,s+1|s-2
sps 1 1 4 0 : 179=2 301=2 302=1 303=0 303=1 304=1 305=1 301=1 302=1 303=1 304=32767 305=1 179=0
110110100110110111010 307=1 308=1 301=2 303=0 303=1 304=5 305=1 309=11 310=1 311=1 = s-32768|l11/1,s-5
sps 0 1 5 0 : 179=1 301=1 304=2 305=0
1 307=1 = s+3|s+3
sps 1 1 16 1 : 179=1 301=0
0100110101000000000000000011100110 307=0 301=0 307=0 301=2 303=0 303=1 304=1 305=0 309=3 310=1 311=5 = -|l3/5,s+1
sps 0 0 16 0 : 179=3 301=3 304=32767 305=0 304=0 305=1 304=32767 305=0 301=1 304=0 305=0 301=3 304=2 305=0 304=2 305=0 304=32767 305=1 179=1 301=0
100 307=1 308=0 = s+32768,s-1,s+32768|-
110 307=1 308=2 = s+3,s+3,s-32768|-
sps 1 1 16 0 : 179=3 301=2 302=0 303=0 306=29877 303=1 304=1 305=0 301=0 301=0
100011 307=1 308=0 310=0 310=1 311=0 = l29877,s+1|l29877/0,s+1
10010100 307=1 308=0 310=1 311=1 310=0 = l29877/1,s+1|l29877,s+1
110 307=1 308=2 = -|-
sps 1 1 5 0 : 179=2 301=2 302=1 303=1 304=1 305=0 303=0 301=0
10111111010000010 307=1 308=0 309=31 310=1 311=1 309=1 310=0 = s+2,l31/1|s+2,l1
10100000111110 307=1 308=0 309=16 310=0 309=31 310=0 = s+2,l16|s+2,l31
10000010000110 307=1 308=0 309=1 310=0 309=3 310=0 = s+2,l1|s+2,l3
sps 1 0 5 0 : 179=2 301=2 302=1 303=1 304=2 305=1 303=0 301=2 302=1 303=1 304=1 305=1 303=0 179=0
11000011001000100000010 307=1 308=1 309=1 310=1 311=3 301=1 303=0 309=1 310=0 = s-2,l1/3|l1
1111100001101010101001100110 307=1 308=1 309=28 310=0 301=2 303=0 303=1 304=1 305=1 309=9 310=1 311=5 = s-2,l28|l9/5,s-2
1000010001010101 307=1 308=0 309=2 310=0 301=1 303=1 304=1 305=1 = s-3,l2|s-2
sps 1 1 8 1 : 179=1 301=0 179=1 301=1 302=0 303=0 306=110
1111 307=1 307=1 310=1 311=0 = -|l110/0
0110 307=0 301=0 307=1 310=0 = -|l110
sps 1 0 5 1 : 179=3 301=0 301=0 301=1 302=1 303=1 304=32767 305=0 179=0
1101 307=1 308=2 301=0 = s+32768|-
sps 1 1 5 1 : 179=2 301=2 302=1 303=0 303=0 301=1 302=0 303=0 306=31 179=1 301=3 302=0 303=0 306=0 303=1 304=1 305=1 303=0 306=0
110100 307=1 308=1 310=0 307=1 310=0 310=0 = l31|l0,s-1,l0
sps 0 1 16 0 : 179=2 301=2 304=2 305=1 304=1 305=0 301=1 304=32767 305=0 179=1 301=0
11 307=1 308=1 = s+32768|-
sps 0 1 8 0 : 179=3 301=0 301=1 304=2 305=1 301=0 179=1 301=3 304=2 305=0 304=0 304=2 305=0
100 307=1 308=0 = -|s+3,s+0,s+2
110 307=1 308=2 = -|s+3,s+0,s+2
101 307=1 308=1 = s-3|s+3,s+0,s+2
sps 1 1 4 0 : 179=1 301=3 302=1 303=1 304=2 305=1 303=0 303=1 304=32767 305=1 179=2 301=2 302=1 303=0 303=0 301=2 302=0 303=1 304=32767 305=0 303=1 304=1 305=0
10011110000010100 307=1 309=3 310=1 311=0 309=0 310=0 309=10 310=0 = s-3,l3/0,s-32767|l0,l10
sps 0 1 5 1 : 179=1 301=2 304=2 305=0 304=0
001101000011001 307=0 301=2 304=1 305=0 304=5 305=0 307=1 = s+2,s+5|s+3,s+0
011 307=0 301=0 307=1 = -|s+3,s+0
00100011011 307=0 301=1 304=5 305=1 307=1 = s-6|s+3,s+0
sps 0 1 4 0 : 179=3 301=2 304=1 305=0 304=0 301=1 304=2 305=0 301=0 179=0
100010001100 307=1 308=0 301=1 304=5 305=0 = s+2,s+0|s+6
1101 307=1 308=2 301=0 = -|-
sps 1 1 5 1 : 179=0 179=0
010000011100010001 301=1 303=0 309=3 310=1 311=7 301=0 = l3/7|-
sps 0 1 8 1 : 179=1 301=3 304=1 305=0 304=32767 305=1 304=32767 305=0 179=1 301=3 304=2 305=1 304=0 304=32767 305=1
11 307=1 307=1 = s+2,s-32767,s+32767|s-3,s+0,s-32767
sps 1 0 4 0 : 179=0
01010100010011011010 301=1 303=1 304=1 305=0 301=1 303=0 309=13 310=1 311=1 = s+2|l13/1
1001000100110100001000010 301=0 301=3 303=0 303=1 304=5 305=1 303=0 309=1 310=0 309=1 310=0 = -|l1,s-6,l1
sps 0 1 16 1 : 179=3 301=3 304=2 305=1 304=2 305=0 304=32767 305=0 301=1 304=0 305=1 301=0 179=2 301=1 304=32767 305=1 301=3 304=1 305=1 304=0 304=2 305=1
10111 307=1 308=1 307=1 308=1 = s-1|s-2,s+0,s-2
sps 1 1 4 1 : 179=2 301=1 302=0 303=1 304=2 305=0 301=3 302=0 303=0 306=2 303=1 304=1 305=1 303=0 306=3
0001000110000110100001010 307=0 301=3 303=0 303=1 304=0 303=0 309=1 310=1 311=1 309=1 310=0 307=1 308=0 = l1/1,s+0,l1|s+3
sps 0 0 5 0 : 179=3 301=0 301=0 301=0
110 307=1 308=2 = -|-
101 307=1 308=1 = -|-
sps 1 0 4 1 : 179=2 301=0 301=2 302=0 303=0 306=2 303=0 306=1
0001000111101001111101010 307=0 301=3 303=0 303=1 304=0 305=1 303=1 304=1 305=0 309=15 310=1 311=1 307=1 308=0 = l15/1,s-1,s+2|-
sps 0 1 8 1 : 179=1 301=2 304=32767 305=1 304=0
11 307=1 307=1 = s-32768,s+0|s-32768,s+0
"""

# Structures of SPSs: whether there are weights, the items, and the structures of list 0 and of list 1. A structure has `h` if the low
# bits of its long-term entries are in headers.
TABLES = """\
1 179=3 301=2 304=32767 305=1 304=0 301=2 304=1 305=0 304=0 301=0 179=2 301=0 301=1 304=32767 305=1 = os-32768,s+0;os+2,s+0;o|o;os-32768
1 179=2 301=2 302=1 303=1 304=1 305=0 303=0 301=0 = hs+2,lNone;o|hs+2,lNone;o
1 179=2 301=2 302=1 303=0 303=1 304=1 305=1 301=1 302=1 303=1 304=32767 305=1 179=0 = hlNone,s-1;hs-32768|-
1 179=2 301=0 301=1 302=1 303=1 304=0 305=1 = o;hs-1|o;hs-1
1 179=1 301=1 302=0 303=1 304=0 305=1 179=3 301=2 302=0 303=0 306=1 303=1 304=32767 305=1 301=3 302=1 303=0 303=0 303=0 301=0 = os-1|ol1,s-32767;hlNone,lNone,lNone;o
1 179=0 179=3 301=0 301=2 304=1 305=1 304=1 305=0 301=3 304=1 305=0 304=2 305=1 304=0 = -|o;os-2,s+1;os+2,s-2,s+0
1 179=3 301=0 301=1 304=2 305=1 301=0 179=1 301=3 304=2 305=0 304=0 304=2 305=0 = o;os-3;o|os+3,s+0,s+2
0 179=2 301=3 304=32767 305=1 304=0 305=0 304=32767 305=0 301=0 = os-32768,s+1,s+32768;o|os-32768,s+1,s+32768;o
1 179=3 301=0 301=3 304=0 305=0 304=1 305=1 304=0 301=3 304=1 305=1 304=0 304=0 179=0 = o;os+1,s-1,s+0;os-2,s+0,s+0|-
1 179=1 301=2 302=1 303=0 303=0 179=2 301=0 301=3 302=1 303=1 304=2 305=0 303=1 304=2 305=0 303=0 = hlNone,lNone|o;hs+3,s+2,lNone
0 179=1 301=1 302=1 303=0 = hlNone|hlNone
1 179=3 301=1 304=2 305=1 301=1 304=2 305=1 301=2 304=1 305=1 304=1 305=0 = os-3;os-3;os-2,s+1|os-3;os-3;os-2,s+1
0 179=1 301=1 302=1 303=0 179=2 301=1 302=0 303=0 306=3 301=3 302=0 303=0 306=3 303=0 306=3 303=1 304=0 305=1 = hlNone|ol3;ol3,l3,s-1
1 179=2 301=0 301=2 304=2 305=0 304=32767 305=1 = o;os+3,s-32767|o;os+3,s-32767
1 179=1 301=3 304=0 305=0 304=2 305=1 304=0 = os+1,s-2,s+0|os+1,s-2,s+0
1 179=2 301=1 304=1 305=0 301=3 304=0 305=0 304=2 305=0 304=32767 305=0 = os+2;os+1,s+2,s+32767|os+2;os+1,s+2,s+32767
1 179=2 301=1 302=0 303=1 304=2 305=0 301=3 302=0 303=0 306=2 303=1 304=1 305=1 303=0 306=3 = os+3;ol2,s-1,l3|os+3;ol2,s-1,l3
0 179=2 301=1 304=1 305=1 301=2 304=1 305=0 304=0 305=0 = os-2;os+2,s+1|os-2;os+2,s+1
0 179=3 301=0 301=1 304=2 305=1 301=1 304=1 305=1 179=0 = o;os-3;os-2|-
1 179=1 301=3 302=0 303=0 306=65535 303=0 306=58538 303=1 304=32767 305=1 = ol65535,l58538,s-32767|ol65535,l58538,s-32767
1 179=2 301=2 304=2 305=1 304=1 305=0 301=1 304=32767 305=0 179=1 301=0 = os-3,s+1;os+32768|o
1 179=2 301=0 301=0 179=2 301=2 304=1 305=0 304=32767 305=1 301=2 304=1 305=1 304=1 305=1 = o;o|os+2,s-32767;os-2,s-1
1 179=1 301=3 304=1 305=0 304=32767 305=1 304=32767 305=0 179=1 301=3 304=2 305=1 304=0 304=32767 305=1 = os+2,s-32767,s+32767|os-3,s+0,s-32767
1 179=0 179=3 301=0 301=1 304=0 305=1 301=0 = -|o;os-1;o
"""

# Weights of headers: whether there is chroma, pps_wp_info_in_ph_flag, pps_weighted_bipred_flag, the entries of both lists and how many
# are active, the bits, and the items.
WEIGHTS = """\
0 0 0 1 0 1 0 = 1111 321=0 324=1 326=0 327=0
1 0 1 3 1 2 0 = 0100001000111111000000001101010010001010000100100010000001010000100100011000010000010110001101 321=1 322=4 324=1 324=1 325=1 325=1 326=0 327=0 328=-212 329=5 328=-4 329=4 326=5 327=-4 328=6 329=2 328=-5 329=-6
1 0 1 2 2 2 0 = 010000100011110011100111001010001000001000001011000000001111110110001001000100100011000110001011 321=1 322=4 324=1 324=1 325=1 325=1 326=-3 327=-3 328=-2 329=4 328=2 329=-5 326=-253 327=-4 328=-4 329=6 328=-1 329=-5
1 0 0 3 3 2 0 = 10001001101100010000001011000100000000011011110011101000011000001000001010001000 321=0 322=-4 324=1 324=0 325=1 325=1 326=4 327=-5 328=4 329=-55 328=-3 329=1 328=6 329=4 328=-2 329=4
1 0 1 2 2 1 2 = 001010000000011011001111011000110100010110111000110110000000000100111111 321=4 322=-217 324=1 325=1 326=-1 327=-6 328=-5 329=-1 328=0 329=-6 324=1 324=0 325=0 325=0 326=-79 327=0
0 0 1 2 1 3 1 = 101100010100001011000110100111100010000001101 321=0 324=0 324=1 324=1 326=5 327=-5 326=-6 327=-3 324=1 326=4 327=-6
0 0 1 1 3 1 3 = 10111010001110000000000000000000000000000001000111101110101000110101110110000101000011001 321=0 324=0 324=1 324=1 324=1 326=1 327=-3 326=601704123 327=5 326=6 327=0
0 1 1 2 2 0 0 = 1010100010110000000000000000000000000000000100101111110111010010000011010001 321=0 323=1 324=1 326=-5 327=1274497076 330=0
1 0 0 1 1 1 0 = 0100001011110011100010110100100000000001001000001010 321=1 322=-5 324=1 325=1 326=-3 327=-5 328=1 329=1 328=-288 329=1
1 1 1 1 1 0 0 = 1111 321=0 322=0 323=0 330=0
"""


PLAIN = "0,0,8,1"


def entry_count(entries):
    """Returns how many entries the text of a list has."""
    return 0 if entries == "-" else entries.count(",") + 1


def told_lists(bits, items, lists):
    """Returns the expected output for the bits of lists, with these items and the entries of both lists."""
    counts = ",".join(str(entry_count(entries)) for entries in lists.split("|"))
    return f"at={len(bits)} {items} | {lists} | entries={counts} | written same"


def header_lines():
    """Returns the lines on the model's lists of headers."""
    for row in HEADERS.splitlines():
        if row.startswith("sps "):
            numbers, structures = row[4:].split(" : ")
            in_force = f"{numbers.replace(' ', ',')} {structures.replace(' ', ',')}"
            continue
        bits, told = row.split(" ", 1)
        items, lists = told.split(" = ")
        yield f"lists {in_force} {hexadecimal(bits)}", told_lists(bits, items, lists)


def table_lines():
    """Returns the lines on the model's structures of SPSs."""
    for row in TABLES.splitlines():
        told, structures = row.split(" = ")
        weighted, items = told.split(" ", 1)
        yield f"structures {weighted} {items.replace(' ', ',')}", structures


def weight_lines():
    """Returns the lines on the model's weights."""
    for row in WEIGHTS.splitlines():
        numbers, told = row.split(" = ")
        bits, items = told.split(" ", 1)
        yield f"weights {numbers.replace(' ', ',')} {hexadecimal(bits)}", f"at={len(bits)} {items} | written same"


def taken_over():
    """Returns lines on a list 0 with structure 2 of 3, with five long-term entries, and a list 1 that takes its index over, which may
    be past its structures.
    """
    first = "179=3;301=0*2;301=5,302=0;303=0,306=1;303=0,306=2;303=0,306=3;303=0,306=4;303=0,306=5"
    told = "at=8 307=1 308=2 310=0 310=0 310=0 310=0 310=0 | "
    whole = "l1,l2,l3,l4,l5|- | entries=5,0 | written c080"
    for count in (1, 3):
        yield f"lists 1,0,8,0 {first};179={count};301=0*{count} c0", told + whole
    yield f"lists 1,0,8,0 {first};179=2;301=0*2 c0", told + refused_syntax(308, 8, "OutOfRange")


def past_the_list():
    """Returns lines on the last structure of three, and on one that doesn't exist."""
    structures = "179=3;301=0*3;179=3;301=0*3"
    yield f"lists 0,0,8,0 {structures} {hexadecimal('110')}", told_lists("110", "307=1 308=2", "-|-")
    yield f"lists 0,0,8,0 {structures} {hexadecimal('111')}", "at=1 307=1 | " + refused_syntax(308, 1, "OutOfRange")


def weight_ends():
    """Returns lines on the largest denominator and the most weights, and on one more: of lists of one entry, and of lists of 16
    entries.
    """
    for denominator in (7, 8):
        bits = Bits()
        bits.ue(denominator)
        answer = "at=8 321=7 324=0 | written same" if denominator == 7 else "at=0 | " + refused_syntax(321, 0, "OutOfRange")
        yield f"weights 0,0,0,1,0,1,0 {hexadecimal(bits.text + '0')}", answer
    for entries, most in ((1, 1), (16, 15)):
        for first, second in ((most, most), (most, most + 1), (most + 1, 0)):
            yield f"weights 0,1,1,{entries},{entries},0,0 {weight_bits(first, second)}", weights_told(most, first, second)


def weight_bits(first, second):
    """Returns the bits of `first` and `second` weights for the lists, all of which are absent."""
    bits = Bits()
    bits.ue(0)
    for count in (first, second):
        bits.ue(count)
        bits.text += "0" * count
    return hexadecimal(bits.text)


def weights_told(most, first, second):
    """Returns the expected output for these weights, if a list has `most` at most."""
    code = 2 * (most + 1).bit_length() - 1
    if first > most:
        return "at=1 321=0 | " + refused_syntax(323, 1, "OutOfRange")
    own, at = f"321=0 323={most}" + " 324=0" * most, 1 + code + most
    if second > most:
        return f"at={at} {own} | " + refused_syntax(330, at, "OutOfRange")
    return f"at={at + code + most} {own} 330={most}" + " 324=0" * most + " | written same"


def structure_lines():
    """Returns lines on structures that are read, and on structures that are written."""
    for bytes_read, told in (
            ("50", "at=5 301=1 304=0 305=0"),
            ("0f00", "at=9 301=29 | " + refused_syntax(304, 9, "Short")),
            ("0f80", "at=0 | refused L code=7"),
            ("04", "at=0 | " + refused_syntax(301, 0, "Short")),
            ("0000000000", "at=0 | " + refused_syntax(301, 0, "LongCode")),
            ("41", "at=3 301=1 | " + refused_syntax(304, 3, "Short")),
            ("4000200040", "at=3 301=1 | " + refused_syntax(304, 3, "OutOfRange")),
            ("46", "at=8 301=1 304=5 | " + refused_syntax(305, 8, "Short"))):
        yield f"structure {PLAIN} 0,1 {bytes_read}", told
    for long_term, items, written in (
            (0, "301=1,304=0,305=0", "54"), (1, "301=1,302=0,303=0,306=5", "42c0"), (1, "301=1,303=0", "48"),
            (0, "301=1,304=0", "no value"), (0, "301=1,304=0,305=0,305=0", "no value"), (0, "301=30", "no value"),
            (0, "301=1,302=0,304=0,305=0", "no value")):
        yield f"spell {long_term},0,4,1 {items}", written


def longest_lists():
    """Returns a line on 29 long-term entries with the longest numbers, and 29 short-term ones."""
    bits, items = Bits(), ["301=29"] + ["303=0"] * 29
    bits.ue(29)
    bits.u(29, 0)
    for i in range(29):
        bits.u(16, 65535 - i)
        bits.u(1, 1)
        bits.ue(2**32 - 2 - i)
        items += [f"309={65535 - i}", "310=1", f"311={2**32 - 2 - i}"]
    bits.ue(29)
    items.append("301=29")
    for i in range(29):
        bits.u(1, 1)
        bits.ue(32767 - i)
        bits.u(1, 1)
        items += ["303=1", f"304={32767 - i}", "305=1"]
    long = ",".join(f"l{65535 - i}/{2**32 - 2 - i}" for i in range(29))
    short = ",".join(f"s-{32768 - i}" for i in range(29))
    yield f"lists 1,0,16,1 179=0,179=0 {hexadecimal(bits.text)}", told_lists(bits.text, " ".join(items), f"{long}|{short}")


def largest_table():
    """Returns a line on 64 structures of 29 entries for each list."""
    words, told = [], []
    for least in (0, 1):
        entries = ",".join(f"304={least + i},305=1" for i in range(29))
        words.append(f"179=64;301=29,{entries}*64")
        told.append(";".join(["o" + ",".join(f"s-{least + i + 1}" for i in range(29))] * 64))
    yield f"structures 0 {';'.join(words)}", "|".join(told)


def list_lines():
    """Returns all lines on lists, each with its expected output."""
    yield from table_lines()
    yield from header_lines()
    yield from taken_over()
    yield from past_the_list()
    yield from structure_lines()
    yield from weight_lines()
    yield from weight_ends()
    yield from longest_lists()
    yield from largest_table()
