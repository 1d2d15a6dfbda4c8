#!/usr/bin/env python3
"""Records what a run of `rt ci` costs: processor seconds of each crate's proof, tests, must-fail edits and builds, its memory, and the time of the whole run.

    scripts/gate-costs.py [--checkout DIR] [--seconds N] [--out FILE] [--write COMMIT]
    scripts/gate-costs.py --from FILE [--write COMMIT]

The first form watches the run of `rt ci` in DIR, the current checkout by default. It waits for one to begin, stops when the run
ends or after N seconds, and prints a table. FILE receives the recording, every half minute, so an interrupt loses nothing. The
second form reads such a recording.

With `--write COMMIT` the figures go to docs/measured/gate.tsv, a row for each crate, as those of this commit. A crate that the run
took from an earlier one keeps its row. Where the recording begins with the run and has every crate, docs/measured/run.tsv receives
the time of the run and its sums. scripts/costs-page.py makes docs/generated/COSTS.md from both.

How it sees: four times a second it reads the children of the `rt ci` process in /proc. What a process takes in its last quarter
second is lost. A check in a folder rt-edit-.. is of an edit: the first one over a crate's seed makes the seed, a later one confirms it.
Everything else in crates/NAME is a proof (`build` or `check`), a proof of tests (`--test`), or a build of what was proved.
"""
import argparse
import collections
import datetime
import json
import os
import pathlib
import re
import subprocess
import time

ROOT = pathlib.Path(__file__).resolve().parent.parent
TICKS = os.sysconf("SC_CLK_TCK")
# Seconds between two looks, and between two writes of the recording.
LOOK, WRITE = 0.25, 30
# The kinds of checks, builds and runs of programs; a column of the table adds up these.
COLUMNS = {"proof": ["proof"], "tests": ["tests", "runs"], "edits": ["seed", "edits", "confirm"], "builds": ["builds"]}
GATE = ["crate", *COLUMNS, "memory", "commit", "kit", "processors", "date", "load"]
RUN = ["what", "value", "unit", "commit", "kit", "machine", "date", "load"]


def read(path):
    with open(path, "rb") as file:
        return file.read().decode(errors="replace")


def stat_of(number):
    """Returns the parent of a process, when it started (in ticks since the system's start), and its processor seconds with those of ended children."""
    # After the name in brackets come, from the third field on: state, parent, .., the four times as fields 14 to 17, the start as field
    # 22.
    fields = read(f"/proc/{number}/stat").rpartition(")")[2].split()
    return int(fields[1]), int(fields[19]), sum(map(int, fields[11:15])) / TICKS


def memory_of(number):
    """Returns the most memory that a process has had and what it has now, in MB."""
    found = dict(re.findall(r"^(VmHWM|VmRSS):\s+(\d+)", read(f"/proc/{number}/status"), re.M))
    return int(found.get("VmHWM", 0)) / 1024, int(found.get("VmRSS", 0)) / 1024


def numbers():
    return [int(it) for it in os.listdir("/proc") if it.isdigit()]


def runs_under_way():
    """Returns the processes of `rt ci`, with the checkout of each."""
    found = {}
    for number in numbers():
        try:
            words = read(f"/proc/{number}/cmdline").split("\0")
            # A program that only starts rt, as timeout does, has the same arguments after its own.
            if re.match(r"rt$|python", os.path.basename(words[0])) and "ci" in words and os.path.basename(words[words.index("ci") - 1]) == "rt":
                found[number] = os.readlink(f"/proc/{number}/cwd")
        except OSError:
            continue
    return found


def kind_of(number, rooms):
    """Returns what a child of `rt ci` is counted as, and its crate; nothing if it is none of these."""
    words = read(f"/proc/{number}/cmdline").split("\0")
    program, cwd = os.path.basename(words[0]), os.path.basename(os.readlink(f"/proc/{number}/cwd"))
    if program == "rattle" and "--crate-name" in words:
        crate = words[words.index("--crate-name") + 1]
        if cwd.startswith("rt-edit-"):
            over = words[words.index("--incremental") + 1] if "--incremental" in words else ""
            if os.path.basename(over) != "seed":
                rooms.add(os.path.dirname(over))
                return "edits", crate
            return "confirm" if os.path.dirname(over) in rooms else "seed", crate
        return "builds" if "--crate-checked" in words else "tests" if "--test" in words else "proof", crate
    if program == "rattle-link":
        return "builds", cwd
    ran = next((it for it in words if re.search(r"/rt-run-[^/]*/bin/", it)), "")
    return ("runs", re.sub(r"_tests$", "", os.path.basename(ran))) if ran else None


def busy():
    """Returns the processor seconds of everything on the machine."""
    fields = list(map(int, read("/proc/stat").partition("\n")[0].split()[1:9]))
    return (sum(fields) - fields[3] - fields[4]) / TICKS


class Recording:
    """What was seen of one run."""

    def __init__(self, run, checkout):
        self.run, self.checkout = run, checkout
        self.began = stat_of(run)[1]
        self.late = time.clock_gettime(time.CLOCK_BOOTTIME) - self.began / TICKS
        self.busy, self.seen, self.rooms, self.peak, self.wall = busy(), {}, set(), 0, self.late
        # What processes had taken before the recording began.
        self.before = 0
        self.date = datetime.date.today().isoformat()

    def look(self):
        """Notes what each process has taken so far, and returns whether the run is still under way."""
        try:
            began = stat_of(self.run)[1]
        except OSError:
            return False
        if began != self.began:
            return False
        is_first, together = not self.seen, 0
        self.wall = time.clock_gettime(time.CLOCK_BOOTTIME) - began / TICKS
        for number in numbers():
            try:
                parent, start, seconds = stat_of(number)
                if parent != self.run:
                    continue
                known = self.seen.get((number, start))
                # A child is rt itself at first, or a shell, until it has become the program.
                kind = known[:2] if known else kind_of(number, self.rooms)
                if kind:
                    most, now = memory_of(number)
                    together += now
                    self.before += seconds if is_first else 0
                    self.seen[number, start] = *kind, seconds, max(most, known[3] if known else 0)
            except (OSError, ValueError, IndexError):
                continue
        self.peak = max(self.peak, together)
        return True

    def told(self):
        """Returns the recording as JSON has it."""
        crates = collections.defaultdict(lambda: collections.defaultdict(float))
        for kind, crate, seconds, memory in self.seen.values():
            crates[crate][kind] += seconds
            crates[crate]["checks" if kind not in ("builds", "runs") else f"number of {kind}"] += 1
            crates[crate]["memory"] = max(crates[crate]["memory"], memory)
        own = sum(it[2] for it in self.seen.values())
        # Others are everything else since the recording began, rt itself among them.
        others = max(0, busy() - self.busy - (own - self.before))
        return {
            "checkout": self.checkout,
            "date": self.date,
            "kit": kit(),
            "machine": machine(),
            "processors": os.cpu_count(),
            "seconds before the recording began": round(self.late),
            "wall": round(self.wall),
            "processor seconds of the run": round(own),
            "processor seconds of others": round(others),
            "memory of all together": round(self.peak),
            "crates": {name: {key: round(value) for key, value in kinds.items()} for name, kinds in crates.items()},
        }


def kit():
    """Returns the name of the Rattle kit."""
    try:
        return subprocess.run(["rt", "--version"], capture_output=True, text=True, timeout=60).stdout.split()[0]
    except (OSError, IndexError, subprocess.TimeoutExpired):
        return "unknown"


def machine():
    """Returns the processor, how many there are, and the memory."""
    model = re.search(r"^model name\s*: (.*)", read("/proc/cpuinfo"), re.M)
    memory = int(re.search(r"MemTotal:\s+(\d+)", read("/proc/meminfo"))[1]) / 1024 / 1024
    return f"{os.cpu_count()} virtual processors ({model[1].strip() if model else 'unknown'}), {memory:.0f} GB"


def columns(kinds):
    """Returns the seconds of a crate by column."""
    return {name: sum(kinds.get(it, 0) for it in parts) for name, parts in COLUMNS.items()}


def table(told):
    """Returns the lines of a table for a reader at a terminal."""
    yield f"{'crate':<14}{'checks':>7}{'proof':>8}{'tests':>8}{'seed':>7}{'edits':>7}{'confirm':>8}{'builds':>8}{'runs':>7}{'MB':>7}"
    sums = collections.Counter()
    for name, kinds in told["crates"].items():
        cells = [kinds.get(it, 0) for it in ("checks", "proof", "tests", "seed", "edits", "confirm", "builds", "runs")]
        sums.update(dict(enumerate(cells)))
        yield f"{name:<14}{cells[0]:>7}{cells[1]:>8}{cells[2]:>8}{cells[3]:>7}{cells[4]:>7}{cells[5]:>8}{cells[6]:>8}{cells[7]:>7}{kinds.get('memory', 0):>7}"
    cells = [sums[it] for it in range(8)]
    yield f"{'all':<14}{cells[0]:>7}{cells[1]:>8}{cells[2]:>8}{cells[3]:>7}{cells[4]:>7}{cells[5]:>8}{cells[6]:>8}{cells[7]:>7}{told['memory of all together']:>7}"
    yield f"wall {told['wall']} s; processor {told['processor seconds of the run']} s, {told['processor seconds of others']} s of others; seen from second {told['seconds before the recording began']} on"


def load_of(told):
    """Returns whether others used the machine: more than one part in twenty of what the run took."""
    return "busy" if 20 * told["processor seconds of others"] > told["processor seconds of the run"] else "idle"


def rows_of(path, names):
    """Returns the rows of a file of measurements by their first column."""
    lines = path.read_text().splitlines() if path.exists() else []
    return {it["crate" if "crate" in it else "what"]: it for it in (dict(zip(names, line.split("\t"))) for line in lines[1:])}


def write(told, commit):
    """Puts a recording into docs/measured."""
    folder = ROOT / "docs/measured"
    folder.mkdir(exist_ok=True)
    common = {"commit": commit, "kit": told["kit"], "processors": told["processors"], "date": told["date"], "load": load_of(told)}
    lines = (line.partition("#")[0] for line in (ROOT / "crates.txt").read_text().splitlines())
    every = [line.partition(":")[0].split()[0] for line in lines if ":" in line]
    old, new = rows_of(folder / "gate.tsv", GATE), {}
    for crate in every:
        kinds = told["crates"].get(crate, {})
        # A crate whose proof was kept has only builds and runs, if anything.
        if kinds.get("proof"):
            new[crate] = {"crate": crate, **columns(kinds), "memory": kinds["memory"], **common}
        elif crate in old:
            new[crate] = old[crate]
    rows = ["\t".join(GATE), *("\t".join(str(it[name]) for name in GATE) for it in new.values())]
    (folder / "gate.tsv").write_text("".join(f"{line}\n" for line in rows))
    lacking = [it for it in every if not told["crates"].get(it, {}).get("proof")]
    if lacking or told["seconds before the recording began"] > 5:
        print(f"docs/measured/run.tsv is left as it is: the recording isn't of a whole run ({' '.join(lacking) or 'it began late'})")
        return
    sums = collections.Counter()
    for kinds in told["crates"].values():
        sums.update(columns(kinds))
    values = {"wall": (told["wall"] / 60, "minutes"), "processor": (sum(sums.values()) / 60, "processor minutes")}
    values |= {name: (sums[name] / 60, "processor minutes") for name in COLUMNS} | {"memory": (told["memory of all together"] / 1024, "GB")}
    rows = [[name, f"{value:.0f}" if unit != "GB" else f"{value:.1f}", unit, commit, told["kit"], told["machine"], told["date"], load_of(told)] for name, (value, unit) in values.items()]
    (folder / "run.tsv").write_text("".join("\t".join(row) + "\n" for row in [RUN, *rows]))


def save(path, told):
    """Writes the recording in one step."""
    beside = path.with_name(f"{path.name}.new")
    beside.write_text(json.dumps(told, indent=1) + "\n")
    beside.replace(path)


def record(checkout, seconds, out):
    """Records the run in a checkout, and returns what was seen."""
    until, recording, written = time.monotonic() + seconds, None, 0
    try:
        while time.monotonic() < until:
            if not recording:
                run = next((it for it, where in runs_under_way().items() if where == checkout), None)
                recording = Recording(run, checkout) if run else None
            if recording and not recording.look():
                break
            if recording and out and time.monotonic() > written + WRITE:
                save(out, recording.told())
                written = time.monotonic()
            time.sleep(LOOK)
    except KeyboardInterrupt:
        pass
    return recording and recording.told()


def main():
    parser = argparse.ArgumentParser(description=__doc__, formatter_class=argparse.RawDescriptionHelpFormatter)
    parser.add_argument("--checkout", default=".", help="where `rt ci` runs")
    parser.add_argument("--seconds", type=float, default=float("inf"), help="how long to watch at most")
    parser.add_argument("--out", type=pathlib.Path, help="the file that receives the recording")
    parser.add_argument("--from", dest="source", type=pathlib.Path, help="a recording to read")
    parser.add_argument("--write", metavar="COMMIT", help="put the figures into docs/measured, as those of this commit")
    words = parser.parse_args()
    told = json.loads(words.source.read_text()) if words.source else record(os.path.realpath(words.checkout), words.seconds, words.out)
    if not told:
        print("no run of `rt ci` was seen there")
        return 1
    if words.out and not words.source:
        save(words.out, told)
    if words.write:
        write(told, words.write)
    print("\n".join(table(told)))
    return 0


if __name__ == "__main__":
    raise SystemExit(main())
