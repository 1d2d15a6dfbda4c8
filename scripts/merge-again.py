#!/usr/bin/env python3
"""Merges sets of streams, and compares each merge, and each extraction from it, with the sources, by what the program shows of them.

usage: scripts/merge-again.py PROGRAM COUNT [STREAMS [MERGES]]

PROGRAM is the built program. The sets are:
- those of small_streams.py with the numbers below COUNT, one to nine streams each;
- the families of real streams of the folder STREAMS;
- the sources of the merges in MERGES that aren't refused, a file like merge.txt of scripts/make-cases.py.

The number of pictures is compared, and of each picture:
- the type of its slices, its TemporalId, and its picture order count;
- whether it starts a coded layer video sequence, and whether an end of sequence comes before it;
- its messages, and how many subpictures and slices it has.

For small streams all this is also compared with what they were written from, as is the data of each slice. All regions are merged again to
the same bytes. `verify merge` has to confirm that the merge is that of its sources, that each extraction is its source, and the same of
what `--tid 0` leaves of both.

The status is 1 if anything differs. Bodies of adaptation parameter sets, reference picture lists, QPs and the rest of what headers mean
are only compared by `verify`.
"""
import os
import sys
import tempfile
from collections import Counter

from case_lines import family_merges, model_merges
from shown import Shown, run
from small_streams import Sibling

DONE = ["", 0]
LOWEST = ("--tid", 0)
# What a picture of a merge has in common with its sources, by the names that it is written with.
KIND = ("type", "tid", "clvss", "poc", "after_end")


def kind_of(picture):
    """Returns these of a picture that is shown."""
    return [picture["type"], picture["tid"], picture["line"]["clvss"], picture["line"]["poc"], picture["ended"]]


class Trial:
    """A set of streams at their corners, what is made from them, and a list of what is wrong."""

    def __init__(self, program, folder, corners, sources, counts):
        self.program, self.folder, self.corners, self.counts, self.wrong = program, folder, corners, counts, []
        self.sources = [self.file(f"source{k}", source) for k, source in enumerate(sources)]

    def file(self, name, stream):
        """Returns the path of a file with these bytes."""
        path = os.path.join(self.folder, name)
        with open(path, "wb") as file:
            file.write(stream)
        return path

    def expect(self, what, is_so, should):
        if is_so != should:
            self.wrong.append((what, is_so, should))

    def made(self, *words):
        """Returns what the program writes with these arguments. It may not refuse them."""
        out, *ending = run(self.program, *words)
        self.expect(words, ending, DONE)
        return out

    def placed(self, paths):
        """Returns the arguments that place the files at the corners."""
        return [f"{corner}={path}" for corner, path in zip(self.corners, paths)]

    def shown(self, path):
        """Returns the pictures of a file, which breaks no rule."""
        shown = Shown(self.program, path)
        self.expect(("show", path), shown.ending, DONE)
        return shown.pictures

    def verify(self, finished, words, count):
        """Checks by `verify merge` that a finished stream of `count` pictures is the merge of these."""
        self.counts["verified"] += 1
        self.expect(("verify", words), self.made("verify", "merge", finished, *words), b"yes pictures %d\n" % count)

    def compare(self, name, pictures, sources, messages):
        """Compares pictures with those of the sources that they were made from, and with those that have the messages."""
        lengths = [len(source) for source in (*sources, messages)]
        self.expect((name, "count"), lengths, [len(pictures)] * len(lengths))
        for number, (picture, told, *parts) in enumerate(zip(pictures, messages, *sources)):
            line = picture["line"]
            counts = [line["picture"], line["subpictures"], line["slices"], len(picture["slices"])]
            slices = sum(len(part["slices"]) for part in parts)
            self.expect((name, number, "kinds"), [kind_of(part) for part in parts], [kind_of(picture)] * len(parts))
            self.expect((name, number, "counts"), counts, [number, len(parts), slices, slices])
            self.expect((name, number, "messages"), picture["messages"], told["messages"])

    def check(self, facts):
        """Merges the streams, and compares. For small streams the facts of the pictures of each are given."""
        merge = self.made("merge", *self.placed(self.sources))
        path = self.file("merge", merge)
        pictures, sources = self.shown(path), [self.shown(source) for source in self.sources]
        self.counts.update(merges=1, sources=len(sources), pictures=len(pictures), slices=sum(len(p["slices"]) for p in pictures))
        self.verify(path, self.placed(self.sources), len(pictures))
        if not pictures:
            return
        carried = facts[0] if facts else self.shown(self.file("first", self.made("extract", 0, self.sources[0])))
        self.compare("merge", pictures, sources, carried)
        for picture, *told in zip(pictures, *facts):
            self.expect("written", [[fact[name] for name in KIND] for fact in told], [kind_of(picture)] * len(facts))
            self.expect("data", [one.endswith(fact["data"]) for one, fact in zip(picture["slices"], told)], [True] * len(facts))
        parts = [self.file(f"part{k}", self.made("extract", k, path)) for k in range(len(sources))]
        for k, part in enumerate(parts):
            self.compare(part, self.shown(part), [sources[k]], pictures)
            self.verify(part, [f"0,0={self.sources[k]}"], len(pictures))
            self.check_lowest(k, path)
        self.expect("merged again", self.made("merge", *self.placed(parts)) == merge, True)

    def check_lowest(self, k, merge):
        """Extracts the pictures of TemporalId 0 of a region and of its source, and compares."""
        self.counts["extractions"] += 2
        part, *ending = run(self.program, "extract", *LOWEST, k, merge)
        source, *should = run(self.program, "extract", *LOWEST, 0, self.sources[k])
        self.expect((k, LOWEST), ending, should)
        part, source = self.file("lowest_part", part), self.file("lowest", source)
        self.verify(part, [f"0,0={source}"], len(self.shown(part)))


def small_set(seed):
    """Returns the corners, the streams and the facts of a set of small streams: a grid of regions of one size."""
    across, down = seed % 3 + 1, seed // 3 % 3 + 1
    siblings = [Sibling(seed, number) for number in range(across * down)]
    width, height = siblings[0].pictures[0]["size"]
    corners = [f"{k % across * width},{k // across * height}" for k in range(len(siblings))]
    return corners, [one.bytes for one in siblings], [one.pictures for one in siblings]


def sets(count, streams=None, merges=None):
    """Returns the sets, with their names."""
    for seed in range(count):
        yield seed, *small_set(seed)
    for merge in [*(family_merges(streams) if streams else ()), *(model_merges(merges) if merges else ())]:
        if merge.expected.status == 0:
            yield merge.name, merge.corners, merge.sources, []


def main(program, count, *others):
    """Tries the sets, and returns whether all is right."""
    counts, all_wrong = Counter(), 0
    for name, corners, sources, facts in sets(int(count), *others):
        with tempfile.TemporaryDirectory() as folder:
            trial = Trial(program, folder, corners, sources, counts)
            trial.check(facts)
        if trial.wrong:
            all_wrong += 1
            print(f"set {name}: {trial.wrong[:3]}")
    print(", ".join(f"{counts[what]} {what}" for what in ("merges", "sources", "pictures", "slices", "extractions", "verified")))
    print(f"{all_wrong} sets are not as they should be")
    return not all_wrong


sys.exit(0 if main(*sys.argv[1:]) else 1)
