#!/usr/bin/env python3
"""Draws docs/images/crates.svg, the crates of crates.txt in the order of the data.

    scripts/draw-crates.py [--check]

A crate stands below all that it uses, and a line leads from a crate down to one that uses it. A use that follows from
others has no line. WORDS says what each crate does, and KINDS which crates have a colour of their own: a new crate needs
its words here. With --check nothing is written, and the status is 1 if the drawing isn't what the script would draw.

Lines that pass a row have a lane there, so none crosses a box. Rows are ordered so that few lines cross.
"""
import argparse
import functools
import math
import pathlib
import sys
from html import escape

ROOT = pathlib.Path(__file__).resolve().parent.parent
DRAWING = ROOT / "docs/images/crates.svg"

WORDS = {
    "vx_io": "sources, sinks",
    "vx_bits": "bits, refusals",
    "vx_fields": "names of fields",
    "vx_annexb": "NAL units",
    "vx_table": "syntax tables",
    "vx_layout": "tiles and slices",
    "vx_sei": "SEI messages",
    "vx_aps": "APS",
    "vx_ptl": "profile, timing",
    "vx_rpl": "reference lists",
    "vx_fit": "regions of a frame",
    "vx_pps": "PPS",
    "vx_sps": "SPS",
    "vx_ph": "picture headers",
    "vx_sh": "slice headers",
    "vx_pic": "what pictures are",
    "vx_report": "printed lines",
    "vx_assemble": "units to pictures",
    "vx_write": "written units",
    "vx_verify": "compares a merge",
    "vx_extract": "one subpicture",
    "vx_frame": "rules on merging",
    "vx_merge": "merged pictures",
    "vx_again": "merges read again",
    "vx_segments": "segments joined",
    "vx_gen": "generated streams",
    "vx_trial": "self-test",
    "vx_play": "files in turn",
    "vx_explain": "text of --explain",
    "vx_run": "the commands",
    "vx_app": "the program",
    "vx_push": "pushed streams",
    "vx_c": "the library in C",
    "vx_cases": "runs commands",
    "vx_vectors": "reads structures",
    "vx_calls": "calls low crates",
}
KINDS = {
    "for users": ("#fde9c9", ("vx_run", "vx_app", "vx_push", "vx_c")),
    "laws only": ("#dcedd8", ("vx_again", "vx_segments")),
    "test programs": ("#e6e6e6", ("vx_cases", "vx_vectors", "vx_calls")),
}
OTHER = "#dbe8f6"

WIDTH, MARGIN, TOP = 900, 14, 48
BOX, HEIGHT, GAP = 128, 40, 34
# The least distance between the middles of two lanes, between a lane and a box, and between two boxes.
LANES, LANE_BOX, BOXES = 18, BOX / 2 + 14, BOX + 16
# The distance between the ends of lines at a box.
PORT = 11
# How often places are improved, and how strongly a lane is drawn to the other lanes of its line.
TURNS, STRAIGHT = 300, 12


def uses(text):
    """Returns what each crate uses, without what follows from its other uses."""
    lines = (line.partition("#")[0] for line in text.splitlines())
    named = {line.partition(":")[0].split()[0]: line.partition(":")[2].split() for line in lines if ":" in line}
    named = {name: [use for use in found if use in named] for name, found in named.items()}

    @functools.lru_cache(None)
    def below(name):
        return set(named[name]).union(*map(below, named[name]))

    return {name: [use for use in found if not any(use in below(other) for other in found)] for name, found in named.items()}


def rows_of(used):
    """Returns the row of each crate: below all that it uses, and further down if that makes its lines shorter in total."""
    rows = {}

    def row(name):
        if name not in rows:
            rows[name] = 1 + max(map(row, used[name]), default=-1)
        return rows[name]

    for name in used:
        row(name)
    users = {name: [user for user in used if name in used[user]] for name in used}
    moved = True
    while moved:
        moved = False
        for name in used:
            last = min((rows[user] for user in users[name]), default=0) - 1
            if len(users[name]) > len(used[name]) and rows[name] < last:
                rows[name], moved = last, True
    return rows


def with_lanes(used, rows):
    """Returns the nodes of each row, crates and lanes, and the lines between neighbouring rows. A lane is a tuple."""
    nodes = [[] for _ in range(max(rows.values()) + 1)]
    for name in used:
        nodes[rows[name]].append(name)
    lines = []
    for user, found in used.items():
        for use in found:
            at = use
            for row in range(rows[use] + 1, rows[user]):
                lane = (use, user, row)
                nodes[row].append(lane)
                lines.append((at, lane))
                at = lane
            lines.append((at, user))
    return nodes, lines


def neighbours(lines):
    """Returns the nodes above and those below each node."""
    above, below = {}, {}
    for upper, lower in lines:
        above.setdefault(lower, []).append(upper)
        below.setdefault(upper, []).append(lower)
    return above, below


def crossings(first, second, below):
    """Returns how many lines between two rows cross."""
    place = {node: k for k, node in enumerate(second)}
    ends = [place[end] for node in first for end in sorted(below.get(node, ()), key=place.get)]
    return sum(a > b for k, a in enumerate(ends) for b in ends[k + 1 :])


def total(nodes, below):
    return sum(crossings(one, other, below) for one, other in zip(nodes, nodes[1:]))


def ordered(nodes, lines):
    """Returns the rows in an order with few crossings: sorted by the mean place of neighbours, then improved by exchanging adjacent
    nodes.
    """
    above, below = neighbours(lines)
    nodes = [list(row) for row in nodes]
    best, least = [list(row) for row in nodes], total(nodes, below)
    for turn in range(40):
        down = turn % 2 == 0
        for k in range(1, len(nodes)) if down else range(len(nodes) - 2, -1, -1):
            place = {node: at for at, node in enumerate(nodes[k - 1 if down else k + 1])}
            own = {node: at for at, node in enumerate(nodes[k])}
            ends = above if down else below

            def middle(node):
                found = [place[end] for end in ends.get(node, ())]
                return sum(found) / len(found) if found else own[node]

            nodes[k].sort(key=middle)
        better = True
        while better:
            better = False
            for number, row in enumerate(nodes):
                near = nodes[max(number - 1, 0) : number + 2]
                for k in range(len(row) - 1):
                    before = total(near, below)
                    row[k], row[k + 1] = row[k + 1], row[k]
                    if total(near, below) < before:
                        better = True
                    else:
                        row[k], row[k + 1] = row[k + 1], row[k]
        if total(nodes, below) < least:
            best, least = [list(row) for row in nodes], total(nodes, below)
    return best


def apart(one, other):
    """Returns the least distance between two adjacent nodes of a row."""
    lanes = isinstance(one, tuple) + isinstance(other, tuple)
    return (BOXES, LANE_BOX, LANES)[lanes]


def edge(node):
    """Returns the least distance of a node's middle from the border of the drawing."""
    return MARGIN + (4 if isinstance(node, tuple) else BOX / 2)


def placed(row, wanted, weights):
    """Returns places for a row that are as near to the wanted ones as the distances allow."""
    offsets = [0]
    for one, other in zip(row, row[1:]):
        offsets.append(offsets[-1] + apart(one, other))
    low, high = edge(row[0]), WIDTH - edge(row[-1]) - offsets[-1]
    groups = []
    for k, node in enumerate(row):
        groups.append([weights[node], wanted[node] - offsets[k], 1])
        while len(groups) > 1 and groups[-2][1] > groups[-1][1]:
            weight, value, count = groups.pop()
            last = groups[-1]
            groups[-1] = [last[0] + weight, (last[0] * last[1] + weight * value) / (last[0] + weight), last[2] + count]
    values = [max(low, min(high, value)) for _, value, count in groups for _ in range(count)]
    return {node: value + offset for node, value, offset in zip(row, values, offsets)}


def places(nodes, lines):
    """Returns the place of each node across the drawing: near the mean of its neighbours, with the lanes of a line one below another.
    """
    above, below = neighbours(lines)
    chains, at = {}, {}
    for row in nodes:
        step = WIDTH / (len(row) + 1)
        at.update(placed(row, {node: step * (k + 1) for k, node in enumerate(row)}, dict.fromkeys(row, 1)))
        for node in row:
            if isinstance(node, tuple):
                chains.setdefault(node[:2], []).append(node)
    for turn in range(TURNS):
        straight = {chain: math.fsum(at[lane] for lane in lanes) / len(lanes) for chain, lanes in chains.items()}
        for row in nodes if turn % 2 else reversed(nodes):
            wanted, weights = {}, {}
            for node in row:
                pulls = [(1, at[end]) for end in above.get(node, []) + below.get(node, [])] or [(1, WIDTH / 2)]
                if isinstance(node, tuple):
                    pulls.append((STRAIGHT, straight[node[:2]]))
                weights[node] = sum(weight for weight, _ in pulls)
                wanted[node] = math.fsum(weight * place for weight, place in pulls) / weights[node]
            at.update(placed(row, wanted, weights))
    # In the middle of the drawing.
    left, right = (pick(at[node] + side * (edge(node) - MARGIN) for node in at) for pick, side in ((min, -1), (max, 1)))
    return {node: place + (WIDTH - left - right) / 2 for node, place in at.items()}


def ports(ends, at):
    """Returns where the lines to these nodes leave a box, measured from its middle."""
    ranked = sorted(ends, key=lambda end: at[end])
    return {end: PORT * (k - (len(ranked) - 1) / 2) for k, end in enumerate(ranked)}


def drawing():
    """Returns the drawing as SVG."""
    used = uses((ROOT / "crates.txt").read_text())
    assert set(used) == set(WORDS), f"words and crates differ: {sorted(set(used) ^ set(WORDS))}"
    rows = rows_of(used)
    nodes, lines = with_lanes(used, rows)
    nodes = ordered(nodes, lines)
    at = places(nodes, lines)
    above, below = neighbours(lines)
    top = {node: TOP + k * (HEIGHT + GAP) for k, row in enumerate(nodes) for node in row}
    colours = {name: colour for colour, names in KINDS.values() for name in names}
    height = TOP + len(nodes) * (HEIGHT + GAP) - GAP + MARGIN

    def end(node, other, ends):
        return at[node] + (0 if isinstance(node, tuple) else ports(ends, at)[other])

    made = [
        f'<svg xmlns="http://www.w3.org/2000/svg" width="{WIDTH}" height="{height}" viewBox="0 0 {WIDTH} {height}" '
        'font-family="Helvetica, Arial, sans-serif">',
        "<title>The crates of Goosequince</title>",
        f'<rect width="{WIDTH}" height="{height}" fill="#ffffff"/>',
    ]
    x = MARGIN
    for name, colour in (("code and definitions", OTHER), *((name, colour) for name, (colour, _) in KINDS.items())):
        made.append(f'<rect x="{x}" y="14" width="16" height="16" rx="3" fill="{colour}" stroke="#5b6b7b"/>')
        made.append(f'<text x="{x + 22}" y="27" font-size="13" fill="#222222">{name}</text>')
        x += 22 + 7 * len(name) + 26
    made.append(f'<text x="{WIDTH - MARGIN}" y="27" font-size="13" fill="#222222" text-anchor="end">A line leads down from a crate to its users.</text>')
    for upper, lower in lines:
        x1, y1 = end(upper, lower, below[upper]), top[upper] + HEIGHT
        x2, y2 = end(lower, upper, above[lower]), top[lower]
        path = f"M{x1:.1f} {y1}C{x1:.1f} {y1 + GAP * 0.55:.1f} {x2:.1f} {y2 - GAP * 0.55:.1f} {x2:.1f} {y2}"
        if isinstance(lower, tuple):
            path += f"V{y2 + HEIGHT}"
        made.append(f'<path d="{path}" fill="none" stroke="#7a8794" stroke-width="1.3"/>')
    for name in used:
        x, y = at[name], top[name]
        made.append(
            f'<rect x="{x - BOX / 2:.1f}" y="{y}" width="{BOX}" height="{HEIGHT}" rx="5" fill="{colours.get(name, OTHER)}" stroke="#5b6b7b"/>'
        )
        made.append(f'<text x="{x:.1f}" y="{y + 17}" font-size="14" font-weight="bold" text-anchor="middle" fill="#111111">{name}</text>')
        made.append(f'<text x="{x:.1f}" y="{y + 32}" font-size="12" text-anchor="middle" fill="#333333">{escape(WORDS[name])}</text>')
    return "\n".join([*made, "</svg>", ""])


def main():
    parser = argparse.ArgumentParser(description="Draws docs/images/crates.svg from crates.txt.")
    parser.add_argument("--check", action="store_true", help="only compare; the status is 1 if the drawing differs")
    made = drawing()
    if not parser.parse_args().check:
        DRAWING.parent.mkdir(exist_ok=True)
        DRAWING.write_text(made)
    elif not DRAWING.exists() or DRAWING.read_text() != made:
        sys.exit(f"{DRAWING.relative_to(ROOT)} isn't what crates.txt makes: run scripts/draw-crates.py")


if __name__ == "__main__":
    main()
