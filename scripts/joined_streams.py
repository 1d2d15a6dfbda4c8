"""Joins streams of an independent model to one, with what `show` has to write of it.

An end of sequence comes between two streams, so that the second is read as it is by itself, except for the places of its units and the
numbers of its pictures. A stream is left out if its first picture isn't one from which others are counted, because the next stream's
pictures would be counted from the stream before.
"""
import json


def counts_others(units):
    """Returns whether the first picture has TemporalId 0 and ph_non_ref_pic_flag 0."""
    first = next(unit for unit in units if "header " in unit)
    return int(first[2:4], 16) % 8 == 1 and " 601=1" not in first


def as_line(value):
    return json.dumps(value, separators=(",", ":"), sort_keys=True) + "\n"


END = b"\0\xa9"


def joined(streams, shown):
    """Returns the streams as one, and its lines. `streams` has the lines of the units of each stream, by its number, which begin with
    their bytes in hexadecimal; `shown` has the lines that are shown of each.
    """
    stream, lines, pictures = b"", [], 0
    for number, units in streams.items():
        if not counts_others(units):
            continue
        if stream:
            lines.append(as_line({"bytes": 2, "offset": len(stream) + 4, "tid": 0, "type": 21}))
            stream += b"\0\0\0\1" + END
        place, before = len(stream), pictures
        for line in shown[number]:
            value = json.loads(line)
            if "offset" in value:
                value["offset"] += place
            if "picture" in value:
                value["picture"] += before
                pictures += 1
            lines.append(as_line(value))
        stream += b"".join(b"\0\0\0\1" + bytes.fromhex(unit.split()[0]) for unit in units)
    return stream, "".join(lines)
