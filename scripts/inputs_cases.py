"""Worked cases of `show --inputs`: the lines of slices with their decoding inputs.

Those of an independent model's streams are made from its files. pictures.txt has what is in force at each slice, its QP, its place and
its payload. streams.txt has the items of the headers, from which the slice type, the offsets for chroma and NumRefIdxActive are made.
The lines of real streams and of single pictures are written out here.
"""
import hashlib
import json

from case_lines import Expected, units
from fields_cases import GRAY_ITEMS, fields_line, gray_fields, kind_of, model_items, model_line, with_fields
from plain_streams import PAYLOAD, stream
from read_sets import NUMBERS
from told_cases import BYTEWISE, GRAY_LINES, GRAY_SETS, PAIR_FRONT, not_understood, picture_line, say, say_in_pieces, told
from worked_cases import A, M, failed, refused

# Types of slices (H.266 7.4.8).
P_SLICE, I_SLICE = 1, 2
PPS_UNIT = 16


def as_line(value):
    return json.dumps(value, separators=(",", ":"), sort_keys=True)


def bytes_of(data):
    """Returns what a line has of bytes: their number, and their MD5 digest."""
    return {"bytes": len(data), "md5": hashlib.md5(data).hexdigest()}


def body_of(word):
    return bytes_of(bytes.fromhex(word))


# What an independent model has of a slice.


def number_list(word):
    return [int(number) for number in word.split(",")]


def entry_of(word):
    """Returns an entry of a list in force: `s+3`, `s-3`, `l5`, or `l5/2` with the cycle of its high bits."""
    if word.startswith("s"):
        return int(word[1:])
    lsb, _, cycle = word[1:].partition("/")
    return {"delta_poc_msb_cycle_lt": int(cycle) if cycle else None, "poc_lsb_lt": int(lsb)}


def list_of(word):
    return [] if word == "-" else [entry_of(entry) for entry in word.split(",")]


def alf_of(word):
    """Returns an adaptive loop filter: `off`, or its parts as `luma:BODY,BODY;cb:0;cr:0;chroma:BODY;cc_cb:-;cc_cr:-`."""
    if word == "off":
        word, enabled = "luma:-;cb:0;cr:0;chroma:-;cc_cb:-;cc_cr:-", False
    else:
        enabled = True
    parts = dict(part.split(":") for part in word.split(";"))
    alf = {name: None if parts[name] == "-" else body_of(parts[name]) for name in ("chroma", "cc_cb", "cc_cr")}
    luma = [] if parts["luma"] == "-" else [body_of(body) for body in parts["luma"].split(",")]
    return {"enabled": enabled, "luma": luma, "cb": parts["cb"] == "1", "cr": parts["cr"] == "1", **alf}


def lmcs_of(word):
    """Returns luma mapping: `off`, or its body and ph_chroma_residual_scale_flag as `BODY/0`."""
    if word == "off":
        return None
    body, scaled = word.split("/")
    return {"body": body_of(body), "ph_chroma_residual_scale_flag": scaled == "1"}


def place_of(slice_words):
    """Returns the place of a slice in its subpicture."""
    width, height = number_list(slice_words["size"].replace("x", ","))
    tiles, slices = (flag == "1" for flag in slice_words["across"])
    rects, address = [number_list(rect) for rect in slice_words["slices"].split(";")], int(slice_words["address"])
    layout = {"columns": number_list(slice_words["columns"]), "rows": number_list(slice_words["rows"]), "slices": rects}
    return {"across_slices": slices, "across_tiles": tiles, "address": address, "height": height, "layout": layout,
            "rect": rects[address], "width": width}


def active_counts(slice_type, items, defaults, lengths):
    """Returns NumRefIdxActive of both lists by H.266 7.4.8, with the items of the slice header, the defaults of the PPS, less 1, and the
    lengths of the lists in force.
    """
    coded = [value for field, value in items if field == NUMBERS["sh_num_ref_idx_active_minus1"]]
    overrides = dict(items).get(NUMBERS["sh_num_ref_idx_active_override_flag"], 1)
    counts = []
    for k in (0, 1):
        if slice_type == I_SLICE or slice_type == P_SLICE and k == 1:
            counts.append(0)
        elif overrides:
            counts.append(1 + (coded.pop(0) if lengths[k] > 1 else 0))
        elif lengths[k] >= defaults[k] + 1:
            counts.append(defaults[k] + 1)
        else:
            counts.append(lengths[k])
    return counts


def slice_line(picture, number, words, items, defaults):
    """Returns the line of a slice, with what the model has of it in `words`, the items of its header, and the defaults of its PPS."""
    coded = dict(items)
    slice_type = coded.get(NUMBERS["sh_slice_type"], I_SLICE)
    lists = [list_of(words[name]) for name in ("list0", "list1")]
    header = {"NumRefIdxActive": active_counts(slice_type, items, defaults, [len(entries) for entries in lists]),
              "SliceQpY": int(words["qp"]), "sh_slice_type": slice_type}
    for name in ("sh_cb_qp_offset", "sh_cr_qp_offset", "sh_joint_cbcr_qp_offset"):
        header[name] = coded.get(NUMBERS[name], 0)
    in_force = {"alf": alf_of(words["alf"]), "lists": lists, "lmcs": lmcs_of(words["lmcs"]),
                "scaling": None if words["scaling"] == "off" else body_of(words["scaling"])}
    # An id that isn't coded is that of the only subpicture, 0.
    subpicture = {"id": coded.get(NUMBERS["sh_subpic_id"], 0), "index": int(words["subpicture"])}
    return as_line({"header": header, "in_force": in_force, "payload": body_of(words["payload"]), "picture": picture,
                    "place": place_of(words), "slice": number, "subpicture": subpicture})


def read_units(lines):
    """Returns the slices of the lines of a stream: the number of the unit, the items of its header, and the defaults of its PPS."""
    sets, found, defaults = {}, [], None
    for number, line in enumerate(lines):
        nal_unit, _, read = line.partition(" ")
        own, _, inside = read.partition("|")
        items = model_items(own.split())
        if kind_of(bytes.fromhex(nal_unit)) == PPS_UNIT and items:
            sets[dict(items)[NUMBERS["pps_pic_parameter_set_id"]]] = [
                value for field, value in items if field == NUMBERS["pps_num_ref_idx_default_active_minus1"]]
        header = items if read.startswith("header ") else model_items(inside.split())
        if header:
            defaults = sets[dict(header)[NUMBERS["ph_pic_parameter_set_id"]]]
        if read.startswith("slice "):
            found.append((number, items, defaults))
    return found


def model_inputs(lines, pictures):
    """Returns the lines of the slices of each picture, given the lines of the stream's units and of its pictures."""
    slices, found = read_units(lines), []
    for line in pictures:
        kind, *words = line.split()
        words = dict(word.split("=") for word in words if "=" in word)
        if kind == "picture":
            # The slices of the picture are the last ones up to the unit that completes it.
            own = [(items, defaults) for unit, items, defaults in slices if unit <= int(words["unit"])][-int(words["slices"]):]
            found.append([])
        else:
            found[-1].append(slice_line(len(found) - 1, len(found[-1]), words, *own.pop(0)))
    return found


def with_inputs(lines, inputs):
    """Returns the lines that are shown of a stream, with the lines of its slices after that of each picture."""
    shown = []
    for line in lines:
        shown.append(line)
        if line.startswith('{"clvss"'):
            shown += inputs[json.loads(line)["picture"]]
    return shown


# The streams of the model that are left out: their lines are long, and other streams have what they show. Those that are also shown with
# both options, and those whose bytes also come one by one.
LONG = ("3", "6", "15", "17", "18", "20", "26", "28", "38", "39")
WITH_FIELDS = ("14", "31")
IN_PIECES = ("13", "14")


def add_model_inputs(cases, streams, shown, pictures):
    """Adds the model's streams, given the lines of their units, what is shown of them, and the lines of their pictures."""
    for number, lines in streams.items():
        if number in LONG:
            continue
        cases.about(f"stream {number} of an independent model: shown with the decoding inputs of its slices")
        inputs = model_inputs(lines, pictures[number])
        name = cases.name(stream(*(bytes.fromhex(line.split()[0]) for line in lines)))
        told_lines = with_inputs(shown[number], inputs)
        expected = Expected(out=told(*told_lines))
        cases.case(f"show --inputs {name}", expected)
        if number in IN_PIECES:
            cases.case(f"show --inputs {name}", expected, *BYTEWISE)
        if number in WITH_FIELDS:
            fields = [model_line(k, line) for k, line in enumerate(lines)]
            cases.case(f"show --fields --inputs {name}", Expected(out=with_fields(told_lines, fields)))


# A single picture, and a picture of two slices.


def plain_line(number=0):
    """Returns the line of a slice of an intra picture of 64 by 64 samples, or of a subpicture of this size, which its number identifies."""
    header = {"NumRefIdxActive": [0, 0], "SliceQpY": 26, "sh_cb_qp_offset": 0, "sh_cr_qp_offset": 0, "sh_joint_cbcr_qp_offset": 0,
              "sh_slice_type": I_SLICE}
    in_force = {"alf": alf_of("off"), "lists": [[], []], "lmcs": None, "scaling": None}
    layout = {"columns": [0, 1], "rows": [0, 1], "slices": [[0, 0, 1, 1]]}
    place = {"across_slices": False, "across_tiles": False, "address": 0, "height": 64, "layout": layout, "rect": [0, 0, 1, 1], "width": 64}
    return as_line({"header": header, "in_force": in_force, "payload": bytes_of(PAYLOAD), "picture": 0, "place": place, "slice": number,
                    "subpicture": {"id": number, "index": number}})


GRAY_INPUTS = GRAY_LINES + told(plain_line())


def gray_both():
    """Returns the lines of a picture with both options: the fields come last."""
    fields = fields_line(2, "SH", GRAY_ITEMS)
    shown = gray_fields()
    return shown[:-len(told(fields))] + told(plain_line(), fields)


def add_plain(cases):
    """Adds a picture of one slice, one of two slices, one that lacks its last slice, and one whose only slice is cut."""
    cases.about("show --inputs: one slice; two; no last slice; a slice without data; nothing")
    halves = PAIR_FRONT + told((54, 6, 8), (64, 6, 8), picture_line(slices=2), plain_line(), plain_line(1))
    rows = [(A, GRAY_INPUTS, ""), (M, halves, ""), (stream(*units(M)[:-1]), PAIR_FRONT + told((54, 6, 8)), "S4 source 0 unit 4"),
            (A[:-3], GRAY_SETS, "S11 source 0 unit 2"), (b"", b"", "")]
    for source, lines, line in rows:
        say_in_pieces(cases, f"show --inputs {cases.name(source)}", refused(line, lines) if line else Expected(out=lines))
    say_in_pieces(cases, f"show --fields --inputs {cases.name(A)}", Expected(out=gray_both()))


def add_words(cases):
    cases.about("`--inputs` alone is a file's name after `show`, and is one after an option")
    cases.named("--inputs", A)
    cases.case("show --inputs", Expected(out=GRAY_LINES))
    cases.case("show --inputs --inputs", Expected(out=GRAY_INPUTS))
    cases.case("show --fields --inputs", Expected(out=gray_fields()))
    cases.case("show --inputs --fields", Expected(out=GRAY_INPUTS))
    cases.case("show --fields --inputs --inputs", Expected(out=gray_both()))
    not_understood(cases, "show --inputs --fields a", "show --inputs a b", "show a --inputs", "show --Inputs a", "--inputs show a",
                   "show --inputs --inputs a", "show --fields --inputs --fields a", "extract --inputs 0 a", "check show --inputs a",
                   "--inputs a")


def add_faults(cases):
    """Adds reads and writes that fail."""
    words = f"show --inputs {cases.name(A)}"
    cases.about("show --inputs: a write that fails, before and within the line of a slice")
    for call in (0, len(GRAY_SETS), len(GRAY_LINES), len(GRAY_LINES) + 300, len(GRAY_INPUTS) - 1):
        cases.case(words, failed("write fault", GRAY_INPUTS[:call]), "pieces out 1", f"fail out {call}")
    cases.case(words, Expected(out=GRAY_INPUTS), "pieces out 1", f"fail out {len(GRAY_INPUTS)}")
    cases.about("show --inputs: a read that fails")
    say(cases, words, failed("read fault source 0", GRAY_SETS), *BYTEWISE, "fail 0 48")
    say(cases, words, failed("read fault source 0"), "fail 0 0")


def add_inputs(cases):
    add_plain(cases)
    add_words(cases)
    add_faults(cases)
