#!/usr/bin/env python3
"""Makes docs/images/speed.svg, docs/generated/MEASURED.md and the tables of docs/SPEED.md from the measurements in docs/measured.

    scripts/speed-chart.py [--check]

With --check nothing is written, and the status is 1 if one of them is not what it would be. A table of docs/SPEED.md is between
`<!-- table: NAME -->` and `<!-- end of table -->`. In a file of docs/measured the last row of a name counts. A name that ends in -cat,
-check, -merge, -show or -memory belongs to the name before it: what is compared with it, or its peak memory.
"""
import math
import pathlib
import re
import sys

ROOT = pathlib.Path(__file__).resolve().parent.parent
MEASURED = ROOT / "docs/measured"
# What is compared with a measurement, by the end of its name.
BESIDE = {"cat": "`cat`", "check": "`check merge`", "merge": "`merge`", "show": "`show`"}
# Each measurement of speed.tsv: its script and what it runs.
DESCRIBED = {
    "show-units": ("bench-show.sh", "`show` of 256 MiB, units of 64 KiB with ordinary payload"),
    "show-zeros": ("bench-show.sh", "the same, with 00 00 at each third byte"),
    "show-short": ("bench-show.sh", "`show` of 2.7 million units of 100 bytes"),
    "show-endless": ("bench-show.sh", "`show` of one endless unit"),
    "show-pictures": ("bench-pictures.sh", "`show` of pictures of four slices with short payloads, five a sequence"),
    "show-slices": ("bench-pictures.sh", "`show` of 1.2 GiB of pictures of four slices of 64 KiB"),
    "show-large": ("bench-pictures.sh", "`show` of pictures of 33 MB"),
    "show-pps": ("bench-pictures.sh", "`show` with 64 PPS units before each sequence"),
    "show-thousand": ("bench-pictures.sh", "`show` of pictures of 1,000 slices"),
    "fields-small": ("bench-show.sh", "`show --fields` of 2,000 pictures of about 50 bytes, each with its sets"),
    "fields-tiles": ("bench-show.sh", "`show --fields` of a real source with tiles, 1,500 times"),
    "extract-large": ("bench-extract.sh", "`extract` of one of four subpictures, 252 MiB of pictures of 262 KB"),
    "extract-tiny": ("bench-extract.sh", "`extract` of pictures of about 140 bytes"),
    "merge-large": ("bench-merge.sh", "`merge` of four sources of 63 MiB, slices of 64 KiB"),
    "verify-large": ("bench-merge.sh", "`verify merge` of such a merge and its sources, 504 MiB"),
    "merge-tiny64": ("bench-merge.sh", "`merge` of 64 sources of tiny pictures, each with its sets"),
    "merge-lists64": ("bench-merge.sh", "`merge` of 64 sources with reference picture lists and loop filters, sets once in 50 rounds"),
    "merge-other-pps": ("bench-merge.sh", "the same, with a PPS of another id"),
    "merge-two-pps": ("bench-merge.sh", "the same, with two PPSs in turn"),
    "play-tiny": ("bench-merge.sh", "`play` of 16 regions of ten files of 50 tiny pictures"),
    "play-slices": ("bench-merge.sh", "the same, with slices of 4 KiB"),
    "trial": ("bench-merge.sh", "`trial 1 16 1000`"),
    "library": ("bench-c.sh", "the library, merges of real streams pushed in pieces"),
    "library-instructions": ("bench-c.sh", "its instructions, pushed in pieces of 1,500 and 65,536 bytes"),
    "library-run": ("bench-c.sh", "the same merges by `gq_run`"),
    "library-last-byte-4": ("bench-c.sh", "the call with a picture's last byte, until the merge of 4 sources is there"),
    "library-last-byte-16": ("bench-c.sh", "the same of 16 sources"),
    "library-last-byte-64": ("bench-c.sh", "the same of 64 sources"),
    "sets-read-sps": ("bench-sets.sh", "`read_sps`, 20 bytes, two subpictures"),
    "sets-write-sps": ("bench-sets.sh", "`write_sps`"),
    "sets-read-pps": ("bench-sets.sh", "`read_pps`, 10 bytes"),
    "sets-write-pps": ("bench-sets.sh", "`write_pps`"),
    "headers-read-ph": ("bench-headers.sh", "`read_ph`, 2 bytes"),
    "headers-write-ph": ("bench-headers.sh", "`write_ph`"),
    "headers-read-sh": ("bench-headers.sh", "`read_sh`, 1 byte"),
    "headers-write-sh": ("bench-headers.sh", "`write_sh`"),
    "layout-largest": ("bench-layout.sh", "the largest layouts: 512 × 512 CTUs, 1,000 subpictures"),
    "fit-regions": ("bench-fit.sh", "`fit_regions`, 64 regions"),
    "fit-lines": ("bench-fit.sh", "`fit_lines`, 64 regions"),
}
SMALL = {
    "gray2": "`merge` of 2 real sources, one slice each",
    "gray4": "`merge` of 4 real sources",
    "ldp": "`merge` of 2 real sources, inter pictures",
    "tiles": "`merge` of 2 real sources with several slices",
    "alf": "`merge` of 4 real sources with filters",
    "tiny64": "`merge` of 64 sources of tiny pictures, each with its sets",
    "lists64": "the same with lists and filters, sets once in 50 rounds",
    "extract": "`extract` of pictures of about 140 bytes",
}
STACK = {
    "library-thread": "a thread that merges real streams with the library",
    "merge-families": "the program, `merge` of real streams",
    "merge-lists64": "the program, `merge` of 64 sources with lists",
    "extract": "the program, `extract`",
}
SLICES = {"short": "about 30 bytes", "long": "16 KiB"}


def rows(name):
    """Returns the last row of each name in a file."""
    path = MEASURED / f"{name}.tsv"
    columns, *lines = (line.split("\t") for line in path.read_text().splitlines())
    return {line[0]: dict(zip(columns, line)) for line in lines}


def value(row):
    return f"{int(row['value']):,} {row['unit']}" if row["value"].isdigit() else f"{row['value']} {row['unit']}"


def where(row):
    """Returns the commit, date and load of a row."""
    return f"{row['commit']}, {row['date']}, {row['load']}"


def throughput(speed):
    """Returns the table of commands over large files, compared with `cat`."""
    yield "| command | time | `cat` | memory | measured |"
    yield "|---|--:|--:|--:|---|"
    for name in ("merge-large", "extract-large", "verify-large", "show-units"):
        yield f"| {DESCRIBED[name][1]} | {value(speed[name])} | {value(speed[f'{name}-cat'])} | {value(speed[f'{name}-memory'])} | {where(speed[name])} |"


def small_pictures(small):
    """Returns the table of what a small picture costs."""
    yield "| command | µs a picture | thousand instructions |"
    yield "|---|--:|--:|"
    for name, text in SMALL.items():
        yield f"| {text} | {small[f'{name}-time']['value']} | {int(small[f'{name}-instructions']['value']):,} |"
    yield ""
    yield f"Times: {where(small['gray2-time'])}, {small['gray2-time']['machine']}. Instructions: {where(small['gray2-instructions'])}."


def viewers(capacity):
    """Returns the table of how many viewers a processor serves."""
    yield "| tiles | slices | µs a picture | viewers at 30 a second | at 60 | memory a viewer |"
    yield "|--:|---|--:|--:|--:|--:|"
    for slices, text in SLICES.items():
        for tiles in (4, 16, 64):
            took = float(capacity[f"{tiles}-{slices}-time"]["value"])
            yield f"| {tiles} | {text} | {took:,.0f} | {int(1e6 / took / 30)} | {int(1e6 / took / 60)} | {value(capacity[f'{tiles}-{slices}-memory'])} |"
    row = capacity["4-short-time"]
    yield ""
    yield f"Measured: {where(row)}, {row['machine']}."


def stack(found):
    """Returns the least stack."""
    yield "| what runs | stack | measured |"
    yield "|---|--:|---|"
    for name, text in STACK.items():
        yield f"| {text} | {value(found[name])} | {where(found[name])} |"


def measured(speed, small, capacity, found):
    """Returns the page with all measurements."""
    yield "<!-- Made by scripts/speed-chart.py from docs/measured. Don't edit it. -->"
    yield "# All measurements of speed"
    yield ""
    yield "For contributors who compare a change with earlier measurements. [SPEED.md](../SPEED.md) has those that matter for planning, and says how to repeat them."
    yield ""
    yield "| script | what runs | measured | compared with | memory | commit | kit | machine | date | load |"
    yield "|---|---|--:|---|--:|---|---|---|---|---|"

    def line(script, text, row, beside="", memory=""):
        cells = [f"`{script}`", text, value(row) if row["unit"] != "MB" else "", beside, memory, *(row[it] for it in ("commit", "kit", "machine", "date", "load"))]
        return "| " + " | ".join(cells) + " |"

    for name, (script, text) in DESCRIBED.items():
        row = speed.get(name) or speed.get(f"{name}-memory")
        if row:
            beside = ", ".join(f"{other}: {value(speed[f'{name}-{end}'])}" for end, other in BESIDE.items() if f"{name}-{end}" in speed)
            memory = speed.get(f"{name}-memory")
            yield line(script, text, row, beside, value(memory) if memory else "")
    for name, text in SMALL.items():
        yield line("bench-small.py", text, small[f"{name}-time"])
        yield line("bench-small.py", f"its instructions: {text}", small[f"{name}-instructions"])
    for slices, text in SLICES.items():
        for tiles in (4, 16, 64):
            name = f"{tiles}-{slices}"
            yield line("bench-capacity.sh", f"a merged picture of {tiles} tiles, slices of {text}", capacity[f"{name}-time"], "", value(capacity[f"{name}-memory"]))
    for name, text in STACK.items():
        yield line("bench-c.sh" if name.startswith("library") else "bench-small.py", f"least stack: {text}", found[name])


# The chart: size, margins, and the ends of both logarithmic axes.
WIDE, HIGH, LEFT, TOP, RIGHT, BOTTOM = 760, 420, 70, 50, 230, 60
SOURCES, TIMES = (3, 80), (30, 2000)
COLORS = {"long": "#b4540a", "short": "#1f5fa8", "64k": "#333333"}


def at(sources, took):
    """Returns the place of a point."""

    def share(x, ends):
        return (math.log(x) - math.log(ends[0])) / (math.log(ends[1]) - math.log(ends[0]))

    return LEFT + share(sources, SOURCES) * (WIDE - LEFT - RIGHT), HIGH - BOTTOM - share(took, TIMES) * (HIGH - TOP - BOTTOM)


def chart(speed, capacity):
    """Returns the lines of the chart."""
    yield f'<svg xmlns="http://www.w3.org/2000/svg" viewBox="0 0 {WIDE} {HIGH}" width="{WIDE}" height="{HIGH}" font-family="sans-serif" font-size="13" fill="#222222">'
    yield "<!-- Made by scripts/speed-chart.py from docs/measured. Don't edit it. -->"
    yield "<title>Processor time of a merged picture against the number of sources</title>"
    yield f'<rect width="{WIDE}" height="{HIGH}" fill="#ffffff"/>'
    yield f'<text x="{LEFT}" y="26" font-size="15" font-weight="bold">Processor time of a merged picture, with reading and writing</text>'
    low, high = at(*(ends[0] for ends in (SOURCES, TIMES))), at(*(ends[1] for ends in (SOURCES, TIMES)))
    for took in (50, 100, 200, 500, 1000, 2000):
        y = at(4, took)[1]
        yield f'<line x1="{low[0]:.1f}" y1="{y:.1f}" x2="{high[0]:.1f}" y2="{y:.1f}" stroke="#dddddd"/>'
        yield f'<text x="{LEFT - 8}" y="{y + 4:.1f}" text-anchor="end">{took:,} µs</text>'
    for sources in (4, 16, 64):
        x = at(sources, 100)[0]
        yield f'<line x1="{x:.1f}" y1="{low[1]:.1f}" x2="{x:.1f}" y2="{low[1] + 5:.1f}" stroke="#222222"/>'
        yield f'<text x="{x:.1f}" y="{low[1] + 20:.1f}" text-anchor="middle">{sources}</text>'
    yield f'<line x1="{low[0]:.1f}" y1="{low[1]:.1f}" x2="{high[0]:.1f}" y2="{low[1]:.1f}" stroke="#222222"/>'
    yield f'<text x="{(low[0] + high[0]) / 2:.1f}" y="{HIGH - 16}" text-anchor="middle">sources (both axes are logarithmic)</text>'
    for slices, text in SLICES.items():
        points = [at(tiles, float(capacity[f"{tiles}-{slices}-time"]["value"])) for tiles in (4, 16, 64)]
        path = " ".join(f"{x:.1f},{y:.1f}" for x, y in points)
        yield f'<polyline points="{path}" fill="none" stroke="{COLORS[slices]}" stroke-width="2"/>'
        for x, y in points:
            yield f'<circle cx="{x:.1f}" cy="{y:.1f}" r="4" fill="{COLORS[slices]}"/>'
        x, y = points[-1]
        yield f'<text x="{x + 10:.1f}" y="{y + 4:.1f}" fill="{COLORS[slices]}">merge, slices of {text}</text>'
    # One merged picture for each four of the sources' pictures.
    pictures = float(speed["merge-large-pictures"]["value"]) / 4
    for name, side, text in (("merge-large", 8, "merge, slices of 64 KiB*"), ("merge-large-cat", 16, "cat of these sources*")):
        x, y = at(4, 1000 * float(speed[name]["value"]) / pictures)
        yield f'<rect x="{x - side / 2:.1f}" y="{y - side / 2:.1f}" width="{side}" height="{side}" fill="none" stroke="{COLORS["64k"]}" stroke-width="1.5"/>'
        # The label of `cat` is below the points of small slices.
        yield f'<text x="{x + 12:.1f}" y="{y + (4 if name == "merge-large" else 24):.1f}">{text}</text>'
    yield f'<text x="{WIDE - 12}" y="{HIGH - 16}" text-anchor="end" font-size="11">* on another machine</text>'
    yield "</svg>"


def main():
    speed, small, capacity, found = map(rows, ("speed", "small", "capacity", "stack"))
    tables = {"throughput": throughput(speed), "small": small_pictures(small), "viewers": viewers(capacity), "stack": stack(found)}
    page = ROOT / "docs/SPEED.md"
    text = page.read_text()
    for name, lines in tables.items():
        text = re.sub(rf"(<!-- table: {name} -->\n).*?(<!-- end of table -->)", lambda m: m[1] + "\n".join([*lines, ""]) + m[2], text, flags=re.S)
    made = {
        ROOT / "docs/images/speed.svg": "\n".join([*chart(speed, capacity), ""]),
        ROOT / "docs/generated/MEASURED.md": "\n".join([*measured(speed, small, capacity, found), ""]),
        page: text,
    }
    stale = [path for path, new in made.items() if not path.exists() or path.read_text() != new]
    if "--check" in sys.argv[1:]:
        for path in stale:
            print(f"{path.relative_to(ROOT)} is not what scripts/speed-chart.py makes", file=sys.stderr)
        return 1 if stale else 0
    for path in stale:
        path.parent.mkdir(exist_ok=True)
        path.write_text(made[path])
    return 0


if __name__ == "__main__":
    raise SystemExit(main())
