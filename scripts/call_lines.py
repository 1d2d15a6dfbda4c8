"""Lines of crates/vx_vectors for single calls, with their expected output: cases that no vector of a model has. Worked by hand."""
from bit_text import Bits, end_of, hexadecimal, refused_syntax
from list_lines import list_lines


def read_whole(word, digits, items):
    """Returns the line of a structure of levels, DPBs or timing that is read to its end, and its expected output."""
    return f"{word} {digits}", f"at={end_of(digits)} {items} | written same"


def level_lines():
    """Returns lines on profile, tier and level, DPB parameters, timing, and the first fields of video parameter sets."""
    yield "vps 0000", "ok 1=0 2=0 3=0"
    yield "vps fff0", "ok 1=15 2=63 3=6"
    yield "vps fff8", refused_syntax(3, 10, "OutOfRange")
    yield read_whole("dpb 1,1", "a74e", "31=0 32=1 33=2 31=0 32=1 33=2")
    yield read_whole("dpb 1,0", "a7", "31=0 32=1 33=2")
    yield read_whole("timing 0,0", "000000010000003c38", "41=1 42=60 43=0 44=0 52=1 54=0")
    yield read_whole("timing 1,1", "00000001000000020400000007fffffffc", "41=1 42=2 43=0 44=0 52=0 53=0 52=0 53=1 54=4294967294")
    yield read_whole("timing 1,1", "000000010000000290234594f79380",
                     "41=1 42=2 43=1 44=0 45=0 46=1 47=2 48=3 49=4 50=5 51=0 52=0 53=0 55=1 56=1 57=2 58=0 59=0 60=0 52=1 54=0 56=0 57=0 "
                     "58=3 59=0 60=1")
    yield read_whole("timing 0,0", "00000001000000026009f0",
                     "41=1 42=2 43=0 44=1 45=1 46=0 48=0 49=0 51=0 52=0 53=0 55=1 56=0 57=0 60=1")
    yield read_whole("timing 0,0", "0000000100000002c005fffc",
                     "41=1 42=2 43=1 44=1 45=0 46=0 48=0 49=0 51=1 52=1 54=0" + " 56=0 57=0 60=1" * 4)
    yield "levels", "vps=true ptl=true dpb=true timing=true sublayer_timing=true"


def longest_lines():
    """Returns lines on the longest structures, up to sublayer 6: all constraints and further bits, all levels and 255 sub-profiles;
    seven entries of the longest codes, 31 zeros and 32 ones each; 32 CPBs of both kinds for each of seven sublayers.
    """
    items = ["11=127 12=1 13=255 14=1 15=1 16=1", *["17=1"] * 71, "18=255", *["19=1"] * 255, *["20=1"] * 6, *["21=255"] * 6, "22=255",
             *["23=4294967295"] * 255]
    yield read_whole("ptl 6,0", "ff" * 44 + "80" + "fc" + "ff" * 1027 + "80", " ".join(items))
    bits = Bits()
    for _ in range(21):
        bits.ue(2**32 - 2)
    yield read_whole("dpb 6,1", hexadecimal(bits.text), " ".join(["31=4294967294 32=4294967294 33=4294967294"] * 7))
    items = ["41=4294967295 42=4294967295 43=1 44=1 45=1 46=1 47=255 48=15 49=15 50=15 51=31"]
    items += [" ".join(["52=1 54=0", *["56=0 57=0 58=0 59=0 60=1"] * 64])] * 7
    yield read_whole("timing 6,1", "ff" * 11 + "041f" + "ff" * 281 + "c0", " ".join(items))


def refused_lines():
    """Returns lines that are refused, with the items before the refusal."""
    for line, items, field, bit, cause in (
            ("ptl 1,0 023381802801", "11=1 12=0 13=51 14=1 15=0 16=0", 20, 19, "BadAlignment"),
            ("ptl 1,0 023380812801", "11=1 12=0 13=51 14=1 15=0 16=0 20=1", 21, 25, "BadAlignment"),
            ("ptl 1,0 023380802801", "11=1 12=0 13=51 14=1 15=0 16=0 20=1 21=40 22=1", 23, 48, "Short"),
            ("dpb 1,1 a7", "31=0 32=1 33=2 31=0", 32, 8, "Short"),
            ("timing 0,0 000000010000000210", "41=1 42=2 43=0 44=0 52=0 53=1", 54, 68, "Short"),
            # 33 CPBs, one too many.
            ("timing 0,0 000000010000000240004200", "41=1 42=2 43=0 44=1 45=0 46=0 48=0 49=0", 51, 76, "OutOfRange")):
        yield line, f"at={bit} {items} | {refused_syntax(field, bit, cause)}"


def count_lines():
    """Returns lines on picture order counts: of a CRA picture, of a second picture, which later ones may refer to or not, of a third,
    and of a CRA picture after an end of sequence. The last lines have the largest and the smallest count, and one beyond.
    """
    yield "count 4,3 - 1 0 0", "3"
    yield "count 4,15 - 0 3 3", "-1"
    yield "count 4,9 - 0 15 -1", "-7"
    yield "count 4,5 - 1 9 -7", "5"
    yield "count 4,9 - 0 3 3", "9"
    yield "count 4,5 - 1 9 9", "5"
    yield "count 16,65535 32767 0 0 0", "2147483647"
    outside = "refused Structure { code: 13, kind: 0, id: 0 }"
    yield "count 16,0 32768 0 0 0", outside
    # with the most bits of a cycle; and the largest and the smallest count without one, and one beyond
    yield "count 4,15 134217727 0 0 0", "2147483647"
    for cycle in (134217728, 268435455, 4294967295):
        yield f"count 4,0 {cycle} 0 0 0", outside
    yield "count 4,15 - 0 15 2147483647", "2147483647"
    yield "count 4,0 - 0 15 2147483647", outside
    yield "count 4,0 - 0 0 -2147483648", "-2147483648"
    yield "count 4,15 - 0 0 -2147483648", outside


def difference_lines():
    """Returns lines on where the decoding input of a shown picture's slice differs from another."""
    for other, told in (("616=1 0 5a80", "same"), ("616=0 0 5a80", "part=4 field=616"), ("616=1 1 5a80", "part=11 field=0"),
                        ("616=1 0 5a81", "part=12 field=0")):
        yield f"differ 616=1 0 5a80 {other}", told


def feed_lines():
    """Returns lines on feeds over sources without a unit to read: zeros, a read that fails, and bytes that are no unit."""
    for piece in (1, 60):
        yield f"feed {piece} - 00000000", "Ok(End) Ok(End) Ok(End) units=0 open=false"
    for call in (0, 1, 2):
        yield f"feed 2 {call} 00000000", "Err(SourceFailed) Err(Stopped(SourceFailed)) Err(Stopped(SourceFailed)) units=0 open=false"
    for digits, code, byte in (("000000000142", 3, 5), ("410000010079", 1, 0)):
        refused = f"Refused(Framing {{ code: {code}, byte: {byte} }})"
        yield f"feed 60 - {digits}", f"Err({refused}) Err(Stopped({refused})) Err(Stopped({refused})) units=0 open=false"


def printed_lines():
    """Returns lines that the program prints, each with its line feed: of units, of pictures, and of refusals at unit 3 of source 2 in
    picture 5. The last picture's number is the largest one.
    """
    for nal_type, tid, offset, length in ((15, 0, 4, 20), (0, 6, 0, 2), (31, 1, 2**40, 2**23)):
        line = f'{{"bytes":{length},"offset":{offset},"tid":{tid},"type":{nal_type}}}\n'
        yield f"unit-line {nal_type} {tid} {offset} {length}", line
    for number, clvss, poc, slices, subpictures in ((0, 1, 65533, 4, 3), (1, 0, -3, 1, 1)):
        line = f'{{"clvss":{"true" if clvss else "false"},"picture":{number},"poc":{poc},"slices":{slices},"subpictures":{subpictures}}}\n'
        yield f"picture-line {number} {clvss} {poc} {slices} {subpictures}", line
    yield from refusal_lines()


def refusal_lines():
    """Returns the lines of refusals."""
    for refusal, line in (
            ("F 1 0", "F1 source 2 byte 0"), ("F 2 7", "F2 source 2 byte 7"), ("F 3 1099511627775", "F3 source 2 byte 1099511627775"),
            ("Y 22 40 Short", "Y source 2 unit 3 field 22 bit 40 Short"),
            ("Y 117 80 LongCode", "Y source 2 unit 3 field 117 bit 80 LongCode"),
            ("Y 656 4294967295 BadTrailing", "Y source 2 unit 3 field 656 bit 4294967295 BadTrailing"),
            ("Y 16 0 BadAlignment", "Y source 2 unit 3 field 16 bit 0 BadAlignment"),
            ("Y 109 50 OutOfRange", "Y source 2 unit 3 field 109 bit 50 OutOfRange"),
            ("L 1", "L1 source 2 unit 3"), ("L 3", "L3 source 2"), ("L 9", "L9 source 2 unit 3"), ("L 10", "L10 source 2 unit 3"),
            ("P 4", "P4 source 2 unit 3"),
            ("S 1 0 7", "S1 source 2 unit 3 ALF 7"), ("S 1 1 3", "S1 source 2 unit 3 LMCS 3"), ("S 1 2 5", "S1 source 2 unit 3 SCALING 5"),
            ("S 1 3 15", "S1 source 2 unit 3 SPS 15"), ("S 1 4 63", "S1 source 2 unit 3 PPS 63"), ("S 4 0 0", "S4 source 2 unit 3"),
            ("S 12 0 3", "S12 source 2 unit 3 layout 3"), ("S 15 0 0", "S15 source 2 unit 3"),
            *((f"E {code}", f"E{code} picture 5") for code in range(1, 6)),
            ("M 1 63 0", "M1 picture 5 source 63"), ("M 2 63 130", "M2 picture 5 source 63 field 130"),
            ("M 3 63 0", "M3 picture 5 source 63"), ("M 7 63 439", "M7 picture 5 source 63 field 439"),
            ("M 8 63 65535", "M8 picture 5 source 63 field 65535"), ("M 9 63 613", "M9 picture 5 source 63"),
            ("M 14 63 0", "M14 picture 5 source 63"), ("M 16 63 0", "M16 picture 5 source 63"), ("L 4", "L4")):
        yield f"refusal-line 2 3 5 0 {refusal}", line + "\n"
    for code in (1, 2, 3, 4, 5, 6):
        line = "L4" if code == 4 else f"L{code} picture 18446744073709551615"
        yield f"refusal-line 0 0 18446744073709551615 1 L {code}", line + "\n"


def call_lines():
    """Returns all lines for single calls, each with its expected output."""
    yield from list_lines()
    yield from level_lines()
    yield from longest_lines()
    yield from refused_lines()
    yield from count_lines()
    yield from difference_lines()
    yield from feed_lines()
    yield from printed_lines()
