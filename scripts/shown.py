"""Runs the built program, and reads what its `show` prints of a file."""
import json
import subprocess

from case_lines import PH, SLICES

END, MESSAGES = (21, 22), 23


def run(program, *words):
    """Returns the output, the line and the status of the program with these arguments."""
    done = subprocess.run([program, *map(str, words)], capture_output=True)
    return done.stdout, done.stderr.decode(), done.returncode


class Shown:
    """What `show` prints of a file: its pictures, each with the bytes of its units, and how it ended."""

    def __init__(self, program, path):
        self.stream = open(path, "rb").read()
        lines, *self.ending = run(program, "show", path)
        self.pictures, self.sets, self.sps = [], {}, None
        self.begin(False)
        for line in map(json.loads, lines.splitlines()):
            if "offset" in line:
                self.take(line)
            elif "ctu" in line:
                self.sps = line
            elif "pps" in line:
                self.sets[line["pps"]] = line
            elif "poc" in line:
                self.end_picture(line)

    def begin(self, ended):
        """Begins a picture."""
        self.now = {"header": None, "slices": [], "ended": ended, "messages": None}

    def take(self, line):
        """Takes a unit of the current picture."""
        found = self.stream[line["offset"]:line["offset"] + line["bytes"]]
        if line["type"] in SLICES:
            self.now["slices"].append(found)
            self.now.update(type=line["type"], tid=line["tid"])
        elif line["type"] == PH:
            self.now["header"] = found
        elif line["type"] in END:
            self.begin(bool(self.pictures))
        elif line["type"] == MESSAGES and not self.now["slices"]:
            self.now["messages"] = found

    def end_picture(self, line):
        """Ends the current picture, given its line."""
        self.now.update(line=line, sps=self.sps, sets=dict(self.sets))
        self.pictures.append(self.now)
        self.begin(False)
