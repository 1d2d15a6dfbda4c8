#!/usr/bin/env python3
"""Prints the arguments of a merge for each family of streams in a folder, a line each, such as `0,0=DIR/a_0.vvc 64,0=DIR/a_1.vvc`.

usage: scripts/families.py FOLDER

FOLDER has the streams, NAME_0.vvc .., and MANIFEST.json with their corners.
"""
import json
import pathlib
import sys


def main():
    if len(sys.argv) != 2:
        sys.exit(__doc__)
    folder = pathlib.Path(sys.argv[1])
    for family in json.loads((folder / "MANIFEST.json").read_text()):
        print(*(f"{it['x']},{it['y']}={folder / it['file']}" for it in family["sources"]))


if __name__ == "__main__":
    main()
