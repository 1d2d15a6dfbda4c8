#!/bin/bash
# Compares the fields that `show --fields` prints of real streams with those that ffmpeg's trace_headers logs: names and values, in order.
# Usage: scripts/compare-fields.sh PROGRAM FILE ..   (PROGRAM is the built program; needs ffmpeg 7.1 or later)
#
# A field that two structures or both lists of a header share is compared without its prefix and without `_l0` and `_l1`. These aren't
# compared: the bits of general constraints, which have one name here, alignments, trailing bits, bodies of APSs and units of other
# types. Prints a line for each file, and in the end `N passed, M failed`. The status is 1 if any file differs.
set -euo pipefail
[ $# -ge 2 ] || { echo "usage: scripts/compare-fields.sh PROGRAM FILE .." >&2; exit 2; }
program=$(realpath "$1")
shift
work=$(mktemp -d)
trap 'rm -rf "$work"' EXIT

passed=0 failed=0
for file; do
  "$program" show --fields "$file" >"$work/shown"
  # `repeat` keeps the log from dropping lines that are equal to the line before.
  if ! ffmpeg -v repeat+trace -f vvc -i "$file" -c copy -bsf:v trace_headers -f null - 2>"$work/traced" </dev/null; then
    tail -n 3 "$work/traced" >&2
    exit 2
  fi
  python3 - "$file" "$work/shown" "$work/traced" <<'PY' && passed=$((passed + 1)) || failed=$((failed + 1))
import json, re, sys
file, shown, traced = sys.argv[1:]
LEFT_OUT = re.compile(r"(gci_|.*(zero_bit|alignment|trailing|rbsp_stop|extension_data|forbidden|nuh_|nal_unit_type|reserved))")
SETS = {"video": "VPS", "sequence": "SPS", "picture": "PPS", "prefix adaptation": "APS", "suffix adaptation": "APS"}
STRUCTURES = {f"{kind} parameter set": short for kind, short in SETS.items()} | {"picture header": "PH", "slice header": "SH"}
SHARED = re.compile(r"^[ps]h_(?=(num_)?alf_)")

def plain(name):
    return re.sub(r"_l[01](?=_|$)", "", SHARED.sub("", name))

ours, theirs = [], []
for line in map(json.loads, open(shown)):
    ours += [(plain(name), value) for name, value in line.get("fields", []) if not LEFT_OUT.match(name)]
# The log has sets twice: before the first packet those that ffmpeg gathered beforehand, then all units in their order.
inside = structure = None
for line in open(traced, errors="replace"):
    if not (found := re.match(r"\[trace_headers @ \w+\] (.*)", line)):
        continue
    if field := re.match(r"\d+ +([a-z]\w*)(?:\[\d+\])* +[01]* *= (-?\d+)$", found[1]):
        name = plain(field[1])
        of_body = structure == "APS" and name not in ("aps_params_type", "aps_adaptation_parameter_set_id")
        if inside and structure and not of_body and not LEFT_OUT.match(name):
            theirs.append((name, int(field[2])))
    elif found[1].startswith(("Extradata", "Packet")):
        inside = found[1].startswith("Packet")
    elif not found[1].startswith("nal_unit_type"):
        structure = STRUCTURES.get(found[1].lower())
for k, (one, other) in enumerate(zip(ours, theirs)):
    if one != other:
        sys.exit(f"{file}: field {k}: {one} here, {other} there")
if len(ours) != len(theirs):
    sys.exit(f"{file}: {len(ours)} fields here, {len(theirs)} there")
print(f"{file}: {len(ours)} fields, all the same")
PY
done
echo "$passed passed, $failed failed"
[ $failed = 0 ]
