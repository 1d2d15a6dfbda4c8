#!/usr/bin/env python3
"""Proves the crates below a crate, several at once.

    scripts/prove-below.py [--jobs N] CRATE

`rt run` in the folder of a program proves the crates below it one after another. This script begins each crate as soon as all crates
below it are proved, first those with the longest chain of crates above them. It runs N checks at once, with one job each: more jobs for one
crate take more processor time, up to four times as much. N is the number of processors by default, and at most one for each 4 GB of
available memory.

Two `rt` commands in one checkout wait for each other. So each crate is proved in a tree of its own inside CRATE's out/, made of links to
its files and to the libraries below, and the result moves back to the crate's out/. `rt` passes over a crate that is proved already.
After a failure no further crate begins, and the checks under way run to their ends. Each proved crate has a line, such as
`vx_bits: proved, 3 of 24`. The environment variable RT names the command to call in place of rt.
"""
import argparse
import os
import pathlib
import shutil
import subprocess
import tempfile
from concurrent.futures import FIRST_COMPLETED, ThreadPoolExecutor, wait

ROOT = pathlib.Path(__file__).resolve().parent.parent
RT = os.environ.get("RT", "rt")
TEXT = ("src", "specs", "proofs")
# What one check with one job may take, in GB.
MEMORY = 4


def dependencies():
    """Returns the crates of the repository that each crate names, and the crates' lines of crates.txt."""
    lines = (line.partition("#")[0].strip() for line in (ROOT / "crates.txt").read_text().splitlines())
    named = {line.partition(":")[0].split()[0]: line for line in lines if ":" in line}
    return {name: [dep for dep in line.partition(":")[2].split() if dep in named] for name, line in named.items()}, named


def below(crate, deps):
    """Returns all crates below a crate."""
    return {it for dep in deps[crate] for it in {dep, *below(dep, deps)}}


def size(crate):
    """Returns the number of lines of a crate's files, as a measure of its time."""
    files = (path for part in TEXT for path in (ROOT / "crates" / crate / part).rglob("*") if path.is_file())
    return sum(path.read_bytes().count(b"\n") for path in files)


def ways(crates, deps):
    """Returns the number of lines along the longest chain from each crate to the top."""
    sizes, found = {it: size(it) for it in crates}, {}
    for crate in sorted(crates, key=lambda it: -len(below(it, deps))):
        found[crate] = sizes[crate] + max((found[it] for it in found if crate in deps[it]), default=0)
    return found


def linked(folder, to):
    """Links the files of a folder, if it exists."""
    if folder.is_dir():
        shutil.copytree(folder, to, copy_function=os.link)


def prove(crate, deps, lines, room):
    """Proves a crate in a tree of its own, and returns the status and the output."""
    tree = pathlib.Path(tempfile.mkdtemp(prefix=f"{crate}-", dir=room))
    names = {crate, *below(crate, deps)}
    for name in names:
        for part in (*TEXT, "out/rlib"):
            linked(ROOT / "crates" / name / part, tree / "crates" / name / part)
    linked(ROOT / "crates" / crate / "out/incremental", tree / "crates" / crate / "out/incremental")
    (tree / "crates.txt").write_text("".join(f"{lines[name]}\n" for name in names))
    shutil.copy(ROOT / "HANDLES", tree / "HANDLES")
    ran = subprocess.run([RT, "lib", "--jobs", "1"], cwd=tree / "crates" / crate, capture_output=True, text=True, errors="replace")
    # If the crate isn't proved, its proved functions are kept.
    for part in ("incremental", "rlib") if ran.returncode == 0 else ("incremental",):
        made, to = tree / "crates" / crate / "out" / part, ROOT / "crates" / crate / "out" / part
        if made.is_dir():
            shutil.rmtree(to, ignore_errors=True)
            to.parent.mkdir(exist_ok=True)
            shutil.move(made, to)
    shutil.rmtree(tree)
    return ran.returncode, ran.stdout + ran.stderr


def memory():
    """Returns the available memory, in GB."""
    words = dict(line.split(":") for line in pathlib.Path("/proc/meminfo").read_text().splitlines())
    return int(words["MemAvailable"].split()[0]) // 1_000_000


def main():
    parser = argparse.ArgumentParser(description=__doc__, formatter_class=argparse.RawDescriptionHelpFormatter)
    parser.add_argument("--jobs", type=int, default=len(os.sched_getaffinity(0)), help="checks at once, at most")
    parser.add_argument("crate", help="the crate whose libraries are proved")
    words = parser.parse_args()
    deps, lines = dependencies()
    left = below(words.crate, deps)
    chain, running, proved = ways(left, deps), {}, set()
    lanes = max(1, min(words.jobs, memory() // MEMORY))
    out = ROOT / "crates" / words.crate / "out"
    out.mkdir(exist_ok=True)
    with tempfile.TemporaryDirectory(prefix="trees-", dir=out) as room, ThreadPoolExecutor(lanes) as pool:
        failed = 0
        while running or left and not failed:
            ready = sorted((it for it in left if not failed and proved.issuperset(deps[it])), key=lambda it: -chain[it])
            for crate in ready[: lanes - len(running)]:
                running[pool.submit(prove, crate, deps, lines, room)] = crate
                left.remove(crate)
            for done in wait(running, return_when=FIRST_COMPLETED).done:
                crate = running.pop(done)
                status, said = done.result()
                if status:
                    failed = status
                    print(f"{said}{crate}: not proved", flush=True)
                    continue
                proved.add(crate)
                print(f"{crate}: proved, {len(proved)} of {len(chain)}", flush=True)
    return failed


if __name__ == "__main__":
    raise SystemExit(main())
