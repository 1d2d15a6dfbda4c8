#!/bin/bash
# Measures how many viewers one processor serves, if each has a merge of its own, and how much memory a viewer takes.
# Usage: scripts/bench-capacity.sh PROGRAM   (the built program)
#
# It prints a table for 4, 16 and 64 tiles, 30 and 60 pictures a second, and slices of about 30 bytes and of 16 KiB. The figures are computed
# from runs of `merge`, one process for each viewer, and include the time to read and write files. Each IDR picture begins a sequence of fifty
# pictures, and only it comes with sets. Not a test, because times depend on the machine. Needs python3 and awk.
set -euo pipefail
[ $# = 1 ] || { echo "usage: scripts/bench-capacity.sh PROGRAM" >&2; exit 2; }
for tool in python3 awk; do
  command -v "$tool" > /dev/null || { echo "scripts/bench-capacity.sh: $tool isn't there" >&2; exit 2; }
done
[ -x "$1" ] || { echo "scripts/bench-capacity.sh: $1 is no program" >&2; exit 2; }
program=$(realpath "$1")
scripts=$(realpath "$(dirname "$0")")
work=$(mktemp -d)
trap 'rm -rf "$work"' EXIT

# `small` has 2,000 pictures, `large` 200.
PYTHONPATH=$scripts python3 - "$work" <<'PY'
import sys
from long_streams import write
from small_streams import Steady
for name, size, times in (("small", 0, 40), ("large", 16384, 4)):
    write(f"{sys.argv[1]}/{name}", Steady(11, [0] * 50, size).bytes, times)
PY

echo "| tiles | slices | a merged picture | viewers at 30 a second | at 60 | resident a viewer at most |"
echo "|--:|---|--:|--:|--:|--:|"
for name in small large; do
  if [ $name = small ]; then slices="some 30 bytes" rounds=2000; else slices="16 KiB" rounds=200; fi
  for count in 4 16 64; do
    words=()
    for ((k = 0; k < count; k++)); do words+=("$((k * 64)),0=$work/$name"); done
    "$scripts/measure.py" "$count" --per "$rounds" round -- "$program" merge "${words[@]}" | awk -v slices="$slices" '
      { match($0, /[0-9.]+ us a round/); took = substr($0, RSTART) + 0; match($0, /peak [0-9]+/); peak = substr($0, RSTART + 5) + 0
        printf "| %s | %s | %.0f µs | %d | %d | %.1f MB |\n", $1 + 0, slices, took, 1e6 / took / 30, 1e6 / took / 60, peak * 1024 / 1e6 }'
  done
done
