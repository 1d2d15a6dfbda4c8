#!/usr/bin/env python3
"""Extracts each subpicture of many streams, and compares what `show` prints of it with the source, picture by picture.

usage: scripts/read-again.py PROGRAM COUNT [FOLDER]

PROGRAM is the built program. The streams are those of small_streams.py with the numbers below COUNT, and the files *.vvc of FOLDER. Of each
picture of an extraction these are compared:
- the type of its slices, its TemporalId, and its picture order count;
- whether it starts a coded layer video sequence, and whether an end of sequence comes before it;
- that it has one subpicture, and as many slices as the source's;
- its picture header and its slices byte for byte, found by the lengths and places that are shown;
- the unit of its messages.

For small streams these are compared too: the size, the tile columns and rows and the slices of the sets that are shown last; the statuses
and lines of E2 to E4; and what `--tid 0` leaves out. All of it, and what is shown of the source, is compared with what the stream was
written from. Subpicture 0 of each extraction is extracted again, to the same bytes. The status is 1 if anything differs.

Some things aren't compared, because `show` doesn't print them:
- the other fields of the sets, which are written anew;
- whether the adaptation parameter sets in force have the same bodies;
- reference picture lists, QPs and what else a header means under these sets;
- the samples.
"""
import glob
import os
import sys
import tempfile
from collections import Counter

from shown import Shown, run
from small_streams import Stream


def facts_of(shown):
    """Returns what is known of the pictures of a file from what is shown of them: all slices, of whatever subpictures."""
    return [{
        "type": p["type"], "tid": p["tid"], "clvss": p["line"]["clvss"], "poc": p["line"]["poc"], "header": p["header"],
        "after_end": p["ended"], "slices": p["slices"], "subpictures": p["line"]["subpictures"],
    } for p in shown.pictures]


def differs(picture, number, fact, slices):
    """Returns which of the values that are shown of a picture are wrong."""
    line = picture["line"]
    pairs = {
        "type": (picture["type"], fact["type"]), "tid": (picture["tid"], fact["tid"]), "clvss": (line["clvss"], fact["clvss"]),
        "poc": (line["poc"], fact["poc"]), "end": (picture["ended"], fact["after_end"]), "number": (line["picture"], number),
        "count": (line["slices"], len(slices)), "header": (picture["header"], fact["header"]), "slices": (picture["slices"], slices),
    }
    return [name for name, (is_so, should) in pairs.items() if is_so != should]


def differs_as_part(picture, number, fact, slices):
    """Returns the same for a picture of an extraction."""
    one = picture["line"]["subpictures"] == 1
    return differs(picture, number, fact, slices) + ([] if one else ["subpictures"])


def differs_around(picture, fact, index):
    """Returns which of the numbers of its sets aren't those of the subpicture, and whether its messages aren't the source's."""
    sps, pps = picture["sps"], picture["sets"][fact["pps"]]
    pairs = {
        "size": ((sps["width"], sps["height"]), fact["sizes"][index]), "tiles": ((pps["columns"], pps["rows"]), fact["tiles"][index]),
        "slice list": (pps["slices"], len(fact["subpictures"][index])), "one": (sps["subpictures"], 1),
        "messages": (picture["messages"], fact["messages"]),
    }
    return [name for name, (is_so, should) in pairs.items() if is_so != should]


def rule(fact, index):
    """Returns the rule on extraction that a picture breaks, or None."""
    if index >= len(fact["subpictures"]):
        return "E2"
    if not fact["treated"][index]:
        return "E3"
    return "E4" if fact["filtered"][index] else None


class Trial:
    """Extractions of one stream, and a list of what is wrong."""

    def __init__(self, program, path, folder, counts):
        self.program, self.path, self.folder, self.counts, self.wrong = program, path, folder, counts, []

    def extract(self, index, options):
        """Extracts a subpicture, and returns what is shown of it, with the line and the status of the extraction."""
        part, *ending = run(self.program, "extract", *options, index, self.path)
        path = os.path.join(self.folder, "part")
        with open(path, "wb") as file:
            file.write(part)
        shown = Shown(self.program, path)
        if shown.ending != ["", 0]:
            self.wrong.append((index, options, "shown", shown.ending))
        if part and run(self.program, "extract", 0, path) != (part, "", 0):
            self.wrong.append((index, options, "again"))
        self.counts["extractions"] += 1
        self.counts["pictures"] += len(shown.pictures)
        self.counts["slices"] += sum(len(picture["slices"]) for picture in shown.pictures)
        return shown, ending

    def check_small(self, facts):
        """Extracts each subpicture of a small stream, and one more, and compares."""
        source = Shown(self.program, self.path)
        if source.ending != ["", 0] or len(source.pictures) != len(facts):
            self.wrong.append(("source", source.ending, len(source.pictures), len(facts)))
        for number, (picture, fact) in enumerate(zip(source.pictures, facts)):
            slices = [one for part in fact["subpictures"] for one in part]
            same = picture["line"]["subpictures"] == len(fact["subpictures"])
            size = (picture["sps"]["width"], picture["sps"]["height"]) == fact["size"]
            if differs(picture, number, fact, slices) or not same or not size:
                self.wrong.append(("source", number, differs(picture, number, fact, slices)))
        for index in range(max(len(fact["subpictures"]) for fact in facts) + 1):
            self.check_part(facts, index, [])
            if any(fact["tid"] for fact in facts):
                self.check_part(facts, index, ["--tid", "0"])

    def check_part(self, facts, index, options):
        """Extracts one subpicture, and compares it up to the first picture that breaks a rule."""
        kept = [fact for fact in facts if not options or fact["tid"] == 0]
        rules = [rule(fact, index) for fact in kept]
        broken = next((at for at, code in enumerate(rules) if code), None)
        shown, ending = self.extract(index, options)
        should = ["", 0] if broken is None else [f"{rules[broken]} picture {facts.index(kept[broken])}\n", 1]
        if ending != should or len(shown.pictures) != len(kept[:broken]):
            self.wrong.append((index, options, ending, should, len(shown.pictures)))
        for number, (picture, fact) in enumerate(zip(shown.pictures, kept[:broken])):
            wrong = differs_as_part(picture, number, fact, fact["subpictures"][index]) + differs_around(picture, fact, index)
            if wrong:
                self.wrong.append((index, options, number, wrong))

    def check_whole(self):
        """Extracts each subpicture of a file, whose slices together are the source's, and compares."""
        source = Shown(self.program, self.path)
        facts = facts_of(source)
        parts = [self.extract(index, [])[0] for index in range(facts[0]["subpictures"])]
        for number, fact in enumerate(facts):
            pictures = [part.pictures[number] for part in parts]
            if [one for picture in pictures for one in picture["slices"]] != fact["slices"]:
                self.wrong.append((number, "slices"))
            for index, picture in enumerate(pictures):
                wrong = differs_as_part(picture, number, fact, picture["slices"])
                if wrong:
                    self.wrong.append((index, number, wrong))
        if source.ending != ["", 0] or any(len(part.pictures) != len(facts) for part in parts):
            self.wrong.append(("pictures", source.ending))


def trials(program, count, streams, counts):
    """Returns what is wrong, stream by stream."""
    with tempfile.TemporaryDirectory() as folder:
        path = os.path.join(folder, "source")
        for seed in range(count):
            stream = Stream(seed)
            with open(path, "wb") as file:
                file.write(stream.bytes)
            trial = Trial(program, path, folder, counts)
            trial.check_small(stream.pictures)
            yield seed, trial.wrong
        for path in streams:
            trial = Trial(program, path, folder, counts)
            trial.check_whole()
            yield os.path.basename(path), trial.wrong


counts, all_wrong = Counter(), 0
files = sorted(glob.glob(os.path.join(sys.argv[3], "*.vvc"))) if len(sys.argv) > 3 else []
for name, wrong in trials(sys.argv[1], int(sys.argv[2]), files, counts):
    counts["streams"] += 1
    if wrong:
        all_wrong += 1
        print(f"stream {name}: {wrong[:3]}")
print(", ".join(f"{counts[what]} {what}" for what in ("streams", "extractions", "pictures", "slices")))
print(f"{all_wrong} streams are not as they should be")
sys.exit(1 if all_wrong else 0)
