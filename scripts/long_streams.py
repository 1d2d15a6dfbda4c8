"""Writes long streams, for the scripts that measure the program: from units, and from pieces that are repeated many times."""
import random
import re

from small_streams import escaped

SLICES = set(range(0, 4)) | set(range(7, 11))
START = b"\0\0\0\1"


def units_of(stream):
    """Returns the NAL units of a byte stream."""
    return [part.rstrip(b"\0") for part in re.split(rb"\x00\x00\x00*\x01", stream)[1:]]


def joined(units):
    """Returns units as a byte stream."""
    return b"".join(START + unit for unit in units)


def ordinary(draw, size):
    """Returns bytes as entropy coding gives them, each value equally often, with emulation prevention. The last byte isn't zero."""
    return escaped(draw.randbytes(size - 1) + b"\x80")


def is_slice(unit):
    """Returns whether a unit is a slice."""
    return unit[1] >> 3 in SLICES


def longer(units, size, seed=1):
    """Returns the units, with `size` bytes added to each slice."""
    draw = random.Random(seed)
    return [unit + ordinary(draw, size) if is_slice(unit) else unit for unit in units]


def write(path, part, times):
    """Writes a file that has a piece `times` times."""
    some = max(1, min(times, 1048576 // max(1, len(part))))
    with open(path, "wb") as file:
        for _ in range(times // some):
            file.write(part * some)
        file.write(part * (times % some))
