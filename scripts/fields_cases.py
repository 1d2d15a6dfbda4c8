"""Worked cases of `show --fields`: the fields of sets and headers by their names.

The lines of the model's streams are made from its items, which it gives by their numbers. Lines of sets that are cut are made by
read_sets.py, which reads them bit by bit. The fields of headers are written out here.
"""
import json
import re

import structure_cases as spelled
from case_lines import Expected, units
from plain_streams import stream
from read_sets import NUMBERS, Pps, Sps
from small_streams import unit
from told_cases import BYTEWISE, GRAY_LINES, not_understood, pps_line, say, say_in_pieces, sps_line, told
from worked_cases import A, M, failed, refused

NAMES = {number: name for name, number in NUMBERS.items()}
# The structure of each type of unit.
STRUCTURES = {14: "VPS", 15: "SPS", 16: "PPS", 17: "APS", 18: "APS", 19: "PH", **dict.fromkeys((0, 1, 2, 3, 7, 8, 9, 10), "SH")}


def fields_line(number, structure, items, **besides):
    """Returns the line of a structure: its items by their numbers, and the length of its body or the field that is refused."""
    line = {"bit": 0, "fields": [[NAMES[field], value] for field, value in items], "structure": structure, "unit": number, **besides}
    return json.dumps(line, separators=(",", ":"), sort_keys=True)


def kind_of(nal_unit):
    return nal_unit[1] >> 3


def rbsp_of(nal_unit):
    """Returns the bytes after the header, without emulation prevention."""
    return re.sub(rb"(?<=\0\0)\x03", b"", nal_unit[2:])


# What an independent model reads.


def model_items(words):
    return [tuple(map(int, word.split("="))) for word in words if re.fullmatch(r"\d+=-?\d+", word)]


def model_line(number, line):
    """Returns the line of a unit's fields, from what the model reads of it; None for a unit that is dropped."""
    nal_unit, _, read = line.partition(" ")
    nal_unit = bytes.fromhex(nal_unit)
    structure = STRUCTURES.get(kind_of(nal_unit))
    if not read.strip() or not structure:
        return None
    if structure == "APS":
        first, *body = rbsp_of(nal_unit)
        items = ("aps_params_type", first >> 5), ("aps_adaptation_parameter_set_id", first & 31)
        return fields_line(number, structure, [(NUMBERS[name], value) for name, value in items], body=len(body))
    own, _, inside = read.partition("|")
    first, *rest = model_items(own.split())
    return fields_line(number, structure, [first, *model_items(inside.split()), *rest])


def with_fields(lines, found):
    """Returns what is shown of a stream, with the line of fields after the lines of each unit."""
    shown, number = [], -1
    for line in [*lines, None]:
        if (line is None or line.startswith('{"bytes"')) and number >= 0 and found[number]:
            shown.append(found[number])
        if line is not None:
            number += line.startswith('{"bytes"')
            shown.append(line)
    return "".join(line + "\n" for line in shown).encode()


def add_model_fields(cases, streams, shown):
    """Adds the model's streams, given the lines of their units and what is shown of them."""
    for number, lines in streams.items():
        cases.about(f"stream {number} of an independent model: shown with its fields")
        found = [model_line(k, line) for k, line in enumerate(lines)]
        name = cases.name(stream(*(bytes.fromhex(line.split()[0]) for line in lines)))
        cases.case(f"show --fields {name}", Expected(out=with_fields(shown[number], found)))


# Sets that are cut.


def reading(kind, rbsp):
    """Returns the items of a set up to where its bits end, and the field and the bit there; None if they don't end within a field."""

    class Cut(kind):
        begun = None

        def begin_field(self, name):
            self.begun = NUMBERS[name], self.at

        def u(self, n, name):
            self.begin_field(name)
            return super().u(n, name)

        def ue(self, name):
            self.begin_field(name)
            return super().ue(name)

        def se(self, name):
            self.begin_field(name)
            return super().se(name)

        def zeros(self):
            self.begun = None
            super().zeros()

    read = Cut.__new__(Cut)
    try:
        Cut.__init__(read, rbsp)
    except AssertionError:
        short = read.at > len(read.bits)
        return (read.items, *read.begun) if short and read.begun else None
    return None


def cut_sets():
    """Returns units of sets that are cut after each of their bytes, with the units before them and the lines of these."""
    sps_unit, pps_unit = units(M)[:2]
    first = [sps_line(128, 64, 2), fields_line(0, "SPS", Sps(rbsp_of(sps_unit)).items)]
    yield Sps, "SPS", sps_unit, [], b""
    yield Pps, "PPS", pps_unit, [sps_unit], told((4, len(sps_unit), 15), *first)


def add_cut_sets(cases):
    for kind, structure, whole, before, lines in cut_sets():
        cases.about(f"show --fields: an {structure} that is cut behind each of its bytes")
        for length in range(2, len(whole)):
            part = whole[:length].rstrip(b"\0")
            ended = reading(kind, rbsp_of(part)) if len(part) > 1 else None
            if not ended or part != whole[:length]:
                continue
            items, field, bit = ended
            line = f"Y source 0 unit {len(before)} field {field} bit {bit} Short"
            shown = lines + told(fields_line(len(before), structure, items, refused=field))
            say_in_pieces(cases, f"show --fields {cases.name(stream(*before, part))}", refused(line, shown))


# Headers, field by field.

# A slice of an IRAP picture with its picture header inside, up to the id of its PPS.
INSIDE = [(700, 1), (600, 1), (601, 0), (602, 0), (603, 0), (605, 0)]
GRAY_SPS, GRAY_PPS, GRAY_SLICE = units(A)


def gray_sets():
    """Returns the lines of the sets of a picture."""
    return told((4, 20, 15), sps_line(), fields_line(0, "SPS", Sps(rbsp_of(GRAY_SPS)).items),
                (28, 10, 16), pps_line(), fields_line(1, "PPS", Pps(rbsp_of(GRAY_PPS)).items))


def add_headers(cases):
    """Adds headers that are cut, headers whose sets haven't come, and headers where none may come."""
    sets = gray_sets()
    cases.about("show --fields: a slice with its picture header inside, which is cut within it")
    cut = stream(GRAY_SPS, GRAY_PPS, GRAY_SLICE[:3])
    say_in_pieces(cases, f"show --fields {cases.name(cut)}",
                  refused("Y source 0 unit 2 field 606 bit 6 Short", sets + told(fields_line(2, "SH", INSIDE, refused=606))))
    cases.about("show --fields: a picture header that is cut at its start, and within it")
    sets_of_pair, header = units(M)[:2], units(M)[2]
    before = told((4, 22, 15), sps_line(128, 64, 2), fields_line(0, "SPS", Sps(rbsp_of(sets_of_pair[0])).items),
                  (30, 12, 16), pps_line(2, 2), fields_line(1, "PPS", Pps(rbsp_of(sets_of_pair[1])).items))
    own = [(600, 1), (601, 0), (602, 0), (603, 0), (605, 0)]
    for length, items, field, bit in ((2, [], 600, 0), (3, own, 606, 5)):
        say_in_pieces(cases, f"show --fields {cases.name(stream(*sets_of_pair, header[:length]))}",
                      refused(f"Y source 0 unit 2 field {field} bit {bit} Short", before + told(fields_line(2, "PH", items, refused=field))))
    cases.about("show --fields: sets that haven't come; a slice that no picture header came before")
    no_pps = stream(GRAY_SPS, GRAY_SLICE)
    sps_told = told((4, 20, 15), sps_line(), fields_line(0, "SPS", Sps(rbsp_of(GRAY_SPS)).items))
    say_in_pieces(cases, f"show --fields {cases.name(no_pps)}", refused("S1 source 0 unit 1 PPS 0", sps_told + told(fields_line(1, "SH", INSIDE))))
    alone = stream(*sets_of_pair, units(M)[3])
    say_in_pieces(cases, f"show --fields {cases.name(alone)}", refused("S2 source 0 unit 2", before))


# Whole sets.


def before(kind, rbsp, name):
    """Returns the items of a set before the first item of a field."""
    read = kind.__new__(kind)
    try:
        kind.__init__(read, rbsp)
    except AssertionError:
        pass
    fields = [field for field, _ in read.items]
    return read.items[:fields.index(NUMBERS[name])]


def add_sets(cases):
    """Adds adaptation parameter sets, sets with a number that is out of its range, and the longest sets."""
    cases.about("show --fields: adaptation parameter sets: two types, one that is dropped, one without a body, and one that doesn't end")
    for rbsp, kind, number, besides, shown, line in (
            ("03a180", 0, 3, {"body": 2}, ['{"aps":3,"kind":0}'], ""),
            ("4301", 2, 3, {"body": 1}, ['{"aps":3,"kind":2}'], ""),
            ("6480", 3, 4, {"body": 1}, [], ""),
            ("22", 1, 2, {"refused": 503}, None, "Y source 0 unit 0 field 503 bit 8 Short"),
            ("0a80", 0, 10, {}, None, "P15 source 0 unit 0")):
        nal_unit = bytes.fromhex("0089" + rbsp)
        items = [(501, kind), (502, number)] if line != "P15 source 0 unit 0" else [(501, kind)]
        fields = fields_line(0, "APS", items, **besides)
        lines = told(fields) if line else told((4, len(nal_unit), 17), *shown, fields)
        say_in_pieces(cases, f"show --fields {cases.name(stream(nal_unit))}", refused(line, lines) if line else Expected(out=lines))
    cases.about("show --fields: an SPS without a width, and one that is too wide")
    for rbsp, line, besides in (("00030233800020412003de003006080010", "Y source 0 unit 0 field 109 bit 50 OutOfRange", {"refused": 109}),
                                ("00030233800000030080120412003de00300608001", "L6 source 0 unit 0", {})):
        nal_unit = bytes.fromhex("0079" + rbsp)
        fields = before(Sps, rbsp_of(nal_unit), "sps_pic_width_max_in_luma_samples")
        say_in_pieces(cases, f"show --fields {cases.name(stream(nal_unit))}", refused(line, told(fields_line(0, "SPS", fields, **besides))))
    cases.about("show --fields: the longest SPS, and the longest slice list of a PPS")
    for kind, number, rbsp, shown in (
            (Sps, 15, spelled.longest_sps(), '{"ctu":32,"height":16384,"sps":15,"subpictures":1000,"width":16384}'),
            (Pps, 16, spelled.longest_pps(), '{"columns":20,"pps":0,"rows":22,"slices":1000,"sps":0}')):
        nal_unit = unit(number, 0, rbsp)
        lines = told((4, len(nal_unit), number), shown, fields_line(0, STRUCTURES[number], kind(rbsp).items))
        cases.case(f"show --fields {cases.name(stream(nal_unit))}", Expected(out=lines))


def set_line(read):
    """Returns the line of a set that was read."""
    latest = {NAMES[field]: value for field, value in read.items}
    if isinstance(read, Sps):
        line = {"ctu": read.ctu, "height": read.height, "sps": latest["sps_seq_parameter_set_id"], "subpictures": len(read.rects),
                "width": read.width}
    else:
        columns, rows = (len(read.columns) - 1, len(read.rows) - 1) if read.partitioned else (1, 1)
        slices = 0 if latest.get("pps_single_slice_per_subpic_flag") else latest.get("pps_num_slices_in_pic_minus1", 0) + 1
        line = {"columns": columns, "pps": latest["pps_pic_parameter_set_id"], "rows": rows, "slices": slices,
                "sps": latest["pps_seq_parameter_set_id"]}
    return json.dumps(line, separators=(",", ":"), sort_keys=True)


def add_family_sets(cases, families):
    """Adds the sets of real streams."""
    cases.about("show --fields: sets of real streams")
    for family in families:
        first = units(family.sources[0])
        sets = first[:next(k for k, nal_unit in enumerate(first) if kind_of(nal_unit) not in (15, 16))]
        shown, place = [], 0
        for k, nal_unit in enumerate(sets):
            read = {15: Sps, 16: Pps}[kind_of(nal_unit)](rbsp_of(nal_unit))
            shown += [(place + 4, len(nal_unit), kind_of(nal_unit)), set_line(read), fields_line(k, STRUCTURES[kind_of(nal_unit)], read.items)]
            place += 4 + len(nal_unit)
        cases.case(f"show --fields {cases.name(stream(*sets))}", Expected(out=told(*shown)))


# Arguments, reads and writes.


def add_words(cases):
    cases.about("`--fields` alone is a file's name behind `show`, and is one behind itself")
    cases.named("--fields", A)
    cases.case("show --fields", Expected(out=GRAY_LINES))
    cases.case("show --fields --fields", Expected(out=gray_fields()))
    not_understood(cases, "show --fields a b", "show a --fields", "show --Fields a", "--fields show a", "show --fields --fields a",
                   "extract --fields 0 a", "--fields a")


def gray_fields():
    """Returns the lines of a picture with its fields."""
    return gray_sets() + told((42, 7, 8), '{"clvss":true,"picture":0,"poc":0,"slices":1,"subpictures":1}',
                              fields_line(2, "SH", GRAY_ITEMS))


# The items of the slice of a picture, with its header inside.
GRAY_ITEMS = [*INSIDE, (606, 0), (705, 0), (713, 0)]


def add_faults(cases):
    """Adds reads and writes that fail."""
    whole, cut = gray_fields(), stream(GRAY_SPS, GRAY_PPS, GRAY_SLICE[:3])
    words = f"show --fields {cases.name(A)}"
    cases.about("show --fields: a write that fails, of the lines of units and of one that is refused")
    for call in (0, 1, 57, 300, len(whole) - 1):
        cases.case(words, failed("write fault", whole[:call]), "pieces out 1", f"fail out {call}")
    cases.case(words, Expected(out=whole), "pieces out 1", f"fail out {len(whole)}")
    lines = gray_sets() + told(fields_line(2, "SH", INSIDE, refused=606))
    for call in (len(gray_sets()), len(lines) - 1):
        cases.case(f"show --fields {cases.name(cut)}", failed("write fault", lines[:call]), "pieces out 1", f"fail out {call}")
    cases.about("show --fields: a read that fails")
    say(cases, words, failed("read fault source 0", gray_sets()), *BYTEWISE, "fail 0 48")
    say(cases, words, failed("read fault source 0"), "fail 0 0")


def add_fields(cases):
    add_cut_sets(cases)
    add_headers(cases)
    add_sets(cases)
    add_words(cases)
    add_faults(cases)
