"""Collects the lines of the cases that crates/vx_cases reads with their expected output lines, and reads merges of others that become cases."""
import json
import os
import re
from collections import namedtuple

SLICES = (0, 1, 2, 3, 7, 8, 9, 10)
PH = 19


def units(stream):
    """Returns the NAL units of a byte stream."""
    return [part.rstrip(b"\0") for part in re.split(rb"\0\0\0*\x01", stream)[1:]]


def picture_count(stream):
    """Returns how many pictures a stream has: each has a PH unit, or a slice that begins with a one and a picture header."""
    types = [(unit[1] >> 3, unit[2:3] >= b"\x80") for unit in units(stream)]
    return sum(kind == PH or kind in SLICES and inside for kind, inside in types)


class Expected:
    """What is expected of a case: the status, the line on `err`, and what is written to `out`."""

    def __init__(self, status=0, err="", out=b""):
        self.status, self.err, self.out = status, err, out

    def verdict(self):
        """Returns what is expected of the `check` of the same."""
        out = b"" if self.status else b"ok pictures %d\n" % picture_count(self.out)
        return Expected(self.status, self.err, out)

    def line(self, kept=False):
        out = "kept" if kept else self.out.hex() or "-"
        return f"status={self.status} err={self.err.replace(' ', '_') or '-'} out={out}"


def expected_of(line):
    """Returns what a line `status=S err=LINE out=BYTES` says, with or without `out`."""
    status, err, out = re.search(r"status=(\d+) err=(\S+)(?: out=(\S*))?", line).groups()
    return Expected(int(status), "" if err == "-" else err.replace("_", " "), unhex(out or ""))


def unhex(word):
    return bytes.fromhex("" if word == "-" else word)


# A merge that others made: its name, its option for the level, the corners, the sources, and what is expected.
Merge = namedtuple("Merge", "name level corners sources expected")


def model_merges(path):
    """Returns the merges of an independent model, from its merge.txt."""
    for line in open(path):
        words = line.split()
        if words[:1] == ["case"]:
            level = f"--level {words[4]} " if words[3] == "--level" else ""
            corners, sources = [word.split("=")[0] for word in words if "=" in word], []
            name = words[1]
        elif words[:1] == ["source"]:
            sources.append(unhex("".join(words[1:])))
        elif words:
            yield Merge(name, level, corners, sources, expected_of(line))


def family_merges(folder):
    """Returns the families of real streams of a folder."""

    def read(name):
        with open(os.path.join(folder, name), "rb") as file:
            return file.read()

    for family in json.loads(read("MANIFEST.json")):
        sources = family["sources"]
        corners = [f"{source['x']},{source['y']}" for source in sources]
        yield Merge(family["name"], "", corners, [read(source["file"]) for source in sources], Expected(out=read(family["merged"])))


def spelled(stream):
    """Returns bytes as words. Bytes may come in parts, each bytes or a pair of a byte and how often it is repeated."""
    words = []
    for part in stream if isinstance(stream, tuple) else (stream,):
        if isinstance(part, bytes):
            words.append(part.hex())
        else:
            times, rest = divmod(part[1], 1000)
            words += [f"{(part[0] * 1000).hex()}*{times}", (part[0] * rest).hex()]
    return " ".join(words) or "-"


class Cases:
    """The lines of the cases, and their expected output lines."""

    def __init__(self):
        self.given, self.made, self.names, self.count = [], [], {}, 0
        # The merges and extractions without settings, and what is expected of them.
        self.plain = {}

    def about(self, text):
        """Adds a comment on the cases after it."""
        self.given += ["", f"# {text}"]

    def name(self, stream):
        """Returns the name of these bytes, and adds a line for them the first time."""
        if stream not in self.names:
            self.names[stream] = f"s{len(self.names)}"
            self.given.append(f"stream {self.names[stream]} {spelled(stream)}")
        return self.names[stream]

    def named(self, name, stream):
        """Gives these bytes this name, even if they have another name."""
        self.given.append(f"stream {name} {spelled(stream)}")

    def placed(self, corners, sources):
        """Returns the arguments that place sources at corners."""
        return " ".join(f"{corner}={self.name(source)}" for corner, source in zip(corners, sources))

    def case(self, words, expected, *settings, keep=None):
        """Adds a case, with the lines that apply to it."""
        settings += (f"keep {keep}",) if keep else ()
        if not settings and words.startswith(("merge ", "extract ")):
            self.plain[words] = expected
        self.given += [*settings, f"case {words}".strip()]
        self.made.append(expected.line(keep is not None))
        self.count += 1

    def line(self, words, made):
        """Adds a line of another verb, and its expected output."""
        self.given.append(words)
        self.made.append(made)

    def checked(self, words, expected, *settings):
        """Adds a case of a command, and one of its check."""
        self.case(words, expected, *settings)
        self.case("check " + re.sub(r"--level \d+ ", "", words), expected.verdict(), *settings)

    def merged(self, corners, sources, expected, level=""):
        """Adds a merge and its check. If the merge has pictures, it is also verified, and its extracted subpictures are merged again to
        the same bytes.
        """
        words = self.placed(corners, sources)
        self.checked(f"merge {level}{words}", expected)
        if expected.status or not expected.out:
            return
        self.case(f"merge {level}{words}", expected, keep="whole")
        self.case(f"verify merge whole {words}", Expected(out=b"yes pictures %d\n" % picture_count(expected.out)))
        for k in range(len(corners)):
            self.case(f"extract {k} whole", expected, keep=f"part{k}")
        words = " ".join(f"{corner}=part{k}" for k, corner in enumerate(corners))
        self.case(f"merge {words}", expected)

    def write(self, folder):
        for name, lines in [("stdin", self.given), ("stdout", self.made)]:
            with open(os.path.join(folder, name), "w") as file:
                file.write("\n".join(lines).lstrip("\n") + "\n")
