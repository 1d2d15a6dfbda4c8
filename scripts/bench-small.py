#!/usr/bin/env python3
"""Measures what small pictures cost: merges of families of streams and of 64 sources of tiny pictures, and an extraction.

usage: scripts/bench-small.py [--families DIR] [--times N] [--instructions] PROGRAM ..

Each PROGRAM is a built program. With several, each figure also has its ratio to that of the first one, so a program can be compared with
the one before a change. DIR has families of streams: NAME_0.vvc .. with a MANIFEST.json that has their corners. Prints a line for each
case: processor time per merged picture, the best of N runs (5 by default). With --instructions it also counts instructions per picture,
by callgrind, as the difference of a long and a short run, without functions that copy and clear memory. All programs have to write the
same bytes. Not a test, because times depend on the machine.
"""
import argparse
import hashlib
import json
import os
import pathlib
import re
import subprocess
import sys
import tempfile

from long_streams import joined, units_of, write
from small_streams import Steady

HERE = pathlib.Path(__file__).resolve().parent
# The shorter and the longer of the two runs whose instructions are counted, in pictures.
ROUNDS = (40, 140)
COPIES = re.compile(r"mem(move|cpy|set)")


class Case:
    """A command over files, each of which is one stream written several times: its arguments before the files, and the corner and
    stream of each file.
    """

    def __init__(self, name, words, sources, pictures, times):
        self.name, self.words, self.sources, self.pictures, self.times = name, words, sources, pictures, times

    def command(self, program, work, times):
        """Returns its command line, over files that it writes into a folder."""
        files = {}
        for corner, stream in self.sources:
            if stream not in files:
                files[stream] = f"{work}/{len(files)}"
                write(files[stream], stream, times)
        return [program, *self.words, *(corner + files[stream] for corner, stream in self.sources)]


def row(stream, count):
    """Returns `count` sources of one stream, side by side."""
    return [(f"{k * 64},0=", stream) for k in range(count)]


def cases(program, families):
    """Returns the cases. The stream to extract from is made by the program."""
    if families:
        for family in json.loads((families / "MANIFEST.json").read_text()):
            sources = [(f"{it['x']},{it['y']}=", (families / it["file"]).read_bytes()) for it in family["sources"]]
            yield Case(f"merge, {family['name']}", ["merge"], sources, family["pictures"], 1500)
    tiny = (HERE.parent / "crates/vx_app/data/a.266").read_bytes()
    yield Case("merge, 64 tiny", ["merge"], row(tiny, 64), 1, 1000)
    yield Case("merge, 64 with lists", ["merge"], row(Steady(11, [0] * 50).bytes, 64), 50, 20)
    with tempfile.TemporaryDirectory() as work:
        four = [(f"{x},{y}=", Steady(11, [0] * 16).bytes) for y in (0, 64) for x in (0, 64)]
        merged = subprocess.run(Case("", ["merge"], four, 16, 1).command(program, work, 1), stdout=subprocess.PIPE, check=True).stdout
    yield Case("extract", ["extract", "1"], [("", joined(units_of(merged)))], 16, 1000)


def processor_time(command):
    """Returns the processor time of a run, in seconds."""
    with open(os.devnull, "wb") as null:
        child = subprocess.Popen(command, stdout=null)
        _, status, used = os.wait4(child.pid, 0)
    if status:
        sys.exit(f"{command[:3]} ended with {status}")
    return used.ru_utime + used.ru_stime


def instructions(command, work):
    """Returns the number of instructions of a run, without those that copy and clear memory."""
    out = f"{work}/callgrind"
    subprocess.run(
        ["valgrind", "--tool=callgrind", f"--callgrind-out-file={out}", *command], stdout=subprocess.DEVNULL, stderr=subprocess.DEVNULL, check=True
    )
    told = subprocess.run(["callgrind_annotate", "--threshold=100", out], stdout=subprocess.PIPE, check=True, text=True).stdout
    lines = re.findall(r"^ *([\d,]+)(?: \([ \d.]+%\))?  (\S.*)$", told, re.M)
    return sum(int(number.replace(",", "")) for number, name in lines if ":" in name and not COPIES.search(name))


def same_bytes(case, programs):
    """Exits if the programs don't write the same bytes."""
    with tempfile.TemporaryDirectory() as work:
        wrote = {hashlib.md5(subprocess.run(case.command(it, work, 3), stdout=subprocess.PIPE, check=True).stdout).hexdigest() for it in programs}
    if len(wrote) != 1:
        sys.exit(f"{case.name}: the programs don't write the same bytes")


def measure(case, programs, times):
    """Returns the least processor time of each program, in microseconds per picture. The programs take turns."""
    with tempfile.TemporaryDirectory() as work:
        commands = [case.command(it, work, case.times) for it in programs]
        least = [min(column) for column in zip(*([processor_time(it) for it in commands] for _ in range(times)))]
    return [it * 1e6 / (case.pictures * case.times) for it in least]


def count(case, program):
    """Returns the number of instructions per picture, in thousands."""
    totals = []
    for rounds in ROUNDS:
        with tempfile.TemporaryDirectory() as work:
            totals.append(instructions(case.command(program, work, max(1, rounds // case.pictures)), work))
    pictures = [max(1, rounds // case.pictures) * case.pictures for rounds in ROUNDS]
    return (totals[1] - totals[0]) / (pictures[1] - pictures[0]) / 1000


def shares(numbers, digits):
    """Returns the numbers as text, each except the first one with its ratio to the first one."""
    told = [f"{numbers[0]:,.{digits}f}"]
    told += [f"{it:,.{digits}f} ({it / numbers[0]:.2f})" for it in numbers[1:]]
    return "  ".join(told)


def main():
    parser = argparse.ArgumentParser(usage=__doc__)
    parser.add_argument("--families", type=pathlib.Path)
    parser.add_argument("--times", type=int, default=5)
    parser.add_argument("--instructions", action="store_true")
    parser.add_argument("program", nargs="+")
    given = parser.parse_args()
    programs = [os.path.realpath(it) for it in given.program]
    for case in cases(programs[0], given.families):
        same_bytes(case, programs)
        line = f"{case.name}: {shares(measure(case, programs, given.times), 1)} us a picture"
        if given.instructions:
            line += f"; {shares([count(case, it) for it in programs], 0)} thousand instructions"
        print(line, flush=True)


if __name__ == "__main__":
    main()
