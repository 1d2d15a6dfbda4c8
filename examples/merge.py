"""Merges files through the library, by ctypes.

    python3 merge.py libgoosequince.so X,Y=FILE .. > merged

Make the shared object from the archive:

    cc -shared -o libgoosequince.so -Wl,--whole-archive libgoosequince.a -Wl,--no-whole-archive
"""
import ctypes as c
import sys

DONE, REFUSED, MISUSED, NO_ROOM, NO_MEMORY, WAITS, ENDED = range(7)


class Corner(c.Structure):
    _fields_ = [("x", c.c_uint32), ("y", c.c_uint32)]


class Picture(c.Structure):
    _fields_ = [
        ("number", c.c_uint64),
        ("bytes", c.c_size_t),
        ("order", c.c_int32),
        ("type", c.c_uint8),
        ("temporal_id", c.c_uint8),
        ("starts_sequence", c.c_bool),
    ]


class Handle(c.Structure):
    _fields_ = [("at", c.c_void_p), ("live", c.c_bool)]


def library(name):
    """Loads the library, and declares what its calls return."""
    gq = c.CDLL(name)
    for call in ("open", "push", "flush", "end", "next", "take"):
        getattr(gq, "gq_merger_" + call).restype = c.c_uint8
    gq.gq_merger_line.restype = c.c_size_t
    gq.gq_merger_close.restype = None
    return gq


class Merger:
    """A merger with one source for each corner."""

    def __init__(self, gq, corners, level=0):
        self.gq, self.handle = gq, Handle()
        all_of = (Corner * len(corners))(*(Corner(x, y) for x, y in corners))
        status = gq.gq_merger_open(c.byref(self.handle), all_of, c.c_size_t(len(corners)), c.c_uint8(level))
        if status != DONE:
            raise ValueError(f"not opened: status {status}")

    def push(self, source, piece):
        """Pushes bytes of a source, and returns how many of them were taken, from the beginning."""
        taken = c.c_size_t()
        self.gq.gq_merger_push(c.byref(self.handle), c.c_size_t(source), piece, c.c_size_t(len(piece)), c.byref(taken))
        return taken.value

    def flush(self, source):
        self.gq.gq_merger_flush(c.byref(self.handle), c.c_size_t(source))

    def end(self, source):
        self.gq.gq_merger_end(c.byref(self.handle), c.c_size_t(source))

    def next(self):
        """Advances, and returns the status, the source that needs bytes, and the picture that is ready."""
        source, picture = c.c_size_t(), Picture()
        status = self.gq.gq_merger_next(c.byref(self.handle), c.byref(source), c.byref(picture))
        return status, source.value, picture

    def take(self, picture):
        """Takes the picture that is ready, and returns its bytes."""
        into = c.create_string_buffer(picture.bytes)
        self.gq.gq_merger_take(c.byref(self.handle), into, c.c_size_t(picture.bytes))
        return into.raw

    def line(self):
        """Returns the line that says why the merger stopped; empty if it isn't stopped."""
        into = c.create_string_buffer(128)
        return into.raw[: self.gq.gq_merger_line(c.byref(self.handle), into, c.c_size_t(128))].decode()

    def close(self):
        self.gq.gq_merger_close(c.byref(self.handle))


def merge(gq, words, out):
    """Merges the files of arguments `X,Y=FILE`, and returns the program's status."""
    placed = [word.split("=", 1) for word in words]
    corners = [tuple(map(int, corner.split(","))) for corner, _ in placed]
    files = [open(name, "rb") for _, name in placed]
    rest = [b""] * len(files)
    merger = Merger(gq, corners)
    while True:
        status, source, picture = merger.next()
        if status == DONE:
            out.write(merger.take(picture))
        elif status == WAITS:
            rest[source] = rest[source] or files[source].read(65536)
            if rest[source]:
                rest[source] = rest[source][merger.push(source, rest[source]) :]
            else:
                merger.end(source)
        else:
            break
    sys.stderr.write(merger.line())
    merger.close()
    return 0 if status == ENDED else status


if __name__ == "__main__":
    sys.exit(merge(library(sys.argv[1]), sys.argv[2:], sys.stdout.buffer))
