#!/usr/bin/env python3
"""Extracts each subpicture of merged streams, and compares it with the merge.

usage: scripts/extract-merges.py PROGRAM FOLDER

PROGRAM is the built program. FOLDER has merges NAME_m.vvc of NAME_0.vvc, NAME_1.vvc .. Three things are checked: the picture headers of
an extraction are those of the merge, in order; the slices of all subpictures together are the slices of the merge; and extracting
subpicture 0 of an extraction gives the same bytes again. Prints a line for each merge. The status is 1 if a check fails.
"""
import glob
import os
import re
import subprocess
import sys

SLICES = set(range(0, 4)) | set(range(7, 11))
HEADERS = {19}


def units(stream):
    """Returns the NAL units of a byte stream."""
    parts = re.split(rb"\x00\x00\x00*\x01", stream)[1:]
    return [part.rstrip(b"\0") for part in parts]


def kept(stream, types):
    """Returns the units of some types."""
    return [unit for unit in units(stream) if unit[1] >> 3 in types]


def extract(program, index, path):
    """Returns a subpicture of a file, as a stream of its own."""
    return subprocess.run([program, "extract", str(index), path], capture_output=True, check=True).stdout


program, folder = sys.argv[1:]
wrong, count = [], 0
for merge in sorted(glob.glob(os.path.join(folder, "*_m.vvc"))):
    name = os.path.basename(merge)[:-len("_m.vvc")]
    stream = open(merge, "rb").read()
    parts = [extract(program, k, merge) for k in range(len(glob.glob(os.path.join(folder, f"{name}_[0-9]*.vvc"))))]
    slices = [kept(part, SLICES) for part in parts]
    count += len(parts)
    whole = sorted(kept(stream, SLICES)) == sorted(unit for part in slices for unit in part)
    headers = all(kept(part, HEADERS) == kept(stream, HEADERS) for part in parts)
    again = []
    for part in parts:
        path = os.path.join("/tmp", f"extracted-{os.getpid()}.266")
        open(path, "wb").write(part)
        again.append(extract(program, 0, path) == part)
        os.remove(path)
    print(f"{name}: {len(parts)} subpictures, {sum(map(len, slices))} slices, headers {headers}, slices {whole}, again {again}")
    if not (whole and headers and all(again)):
        wrong.append(name)
print(f"{count} subpictures; not as they should be: {wrong}")
sys.exit(1 if wrong else 0)
