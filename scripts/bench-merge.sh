#!/bin/bash
# Measures the processor time and the peak resident memory of `merge`, `check merge`, `verify merge` and `play`.
# Usage: scripts/bench-merge.sh PROGRAM [MIB]
#
# PROGRAM is the built program. It measures:
# - `merge` of four sources of MIB mebibytes each (64 by default), with slices of 64 KiB, compared with `cat` of them; and `verify merge` of
#   the result, compared with `cat` of all five files;
# - a round of streams of tiny pictures, of 2, 16 and 64 sources;
# - `play` of sixteen regions of ten files of fifty pictures each, compared with `merge` of the same pictures in one file for each region;
# - rounds in which the PPS gets another id than 0, and rounds in which the sets change.
# If perf and valgrind are installed, it also prints where the time goes. Not a test, because times depend on the machine.
set -euo pipefail
[ $# -ge 1 ] || { echo "usage: scripts/bench-merge.sh PROGRAM [MIB]" >&2; exit 2; }
program=$(realpath "$1")
mib=${2:-64}
scripts=$(realpath "$(dirname "$0")")
work=$(mktemp -d)
trap 'rm -rf "$work"' EXIT
rounds=2000

# The sources. Each picture of `tiny` is an IDR picture of about 50 bytes with its sets. In the others each IDR picture begins a sequence of
# fifty pictures with one PPS (`same`), with another one from the second picture on (`other`), or with two in turn (`changing`).
PYTHONPATH=$scripts python3 - "$work" "$mib" "$rounds" "$scripts/../crates/vx_app/data/a.266" <<'PY'
import sys
from long_streams import write
from small_streams import Steady
work, mib, rounds, gray = sys.argv[1], int(sys.argv[2]), int(sys.argv[3]), open(sys.argv[4], "rb").read()
larges = [Steady(11, [0] * 16, 65536, k).bytes for k in range(4)]
for k, large in enumerate(larges):
    write(f"{work}/large{k}", large, max(1, mib * 1048576 // max(map(len, larges))))
write(f"{work}/tiny", gray, rounds)
write(f"{work}/short", gray, 50)
for name, size in (("tiny", 0), ("large", 4096)):
    segment = Steady(11, [0] * 50, size).bytes
    write(f"{work}/{name}-segment", segment, 1)
    write(f"{work}/{name}-segments", segment, 10)
for name, ids in (("same", [0] * 50), ("other", [0] + [1] * 49), ("changing", [0, 1] * 25)):
    write(f"{work}/{name}", Steady(11, ids).bytes, rounds // 50)
PY

# Prints the arguments for `count` sources of a file, side by side.
row() {
  local file=$1 count=$2 k
  for ((k = 0; k < count; k++)); do echo "$((k * 64)),0=$file"; done
}

four=("0,0=$work/large0" "64,0=$work/large1" "0,64=$work/large2" "64,64=$work/large3")
size=$(cat "$work"/large? | wc -c)
"$scripts/measure.py" "four sources, cat" --bytes "$size" -- cat "$work"/large?
"$scripts/measure.py" "four sources, check merge" --bytes "$size" -- "$program" check merge "${four[@]}"
"$scripts/measure.py" "four sources, merge" --bytes "$size" -- "$program" merge "${four[@]}"

"$program" merge "${four[@]}" > "$work/merged"
five=$(cat "$work/merged" "$work"/large? | wc -c)
"$program" verify merge "$work/merged" "${four[@]}"
"$scripts/measure.py" "four sources and what comes of them, cat" --bytes "$five" -- cat "$work/merged" "$work"/large?
"$scripts/measure.py" "four sources and what comes of them, verify merge" --bytes "$five" -- "$program" verify merge "$work/merged" "${four[@]}"
rm "$work/merged"

for count in 2 16 64; do
  mapfile -t words < <(row "$work/tiny" "$count")
  "$scripts/measure.py" "$count sources of tiny pictures, check merge" --per "$rounds" round -- "$program" check merge "${words[@]}"
  "$scripts/measure.py" "$count sources of tiny pictures, merge" --per "$rounds" round -- "$program" merge "${words[@]}"
done

for name in tiny large; do
  words=()
  for ((k = 0; k < 10; k++)); do mapfile -t -O "${#words[@]}" words < <(row "$work/$name-segment" 16); done
  "$scripts/measure.py" "16 regions of ten files of fifty $name pictures, play" --per 500 round -- "$program" play "${words[@]}"
  mapfile -t words < <(row "$work/$name-segments" 16)
  "$scripts/measure.py" "the same in one file a region, merge" --per 500 round -- "$program" merge "${words[@]}"
done

# Each source read by itself: the part of a round that goes to units, headers and pictures, without the lines of `show` and with them.
for ((k = 0; k < 64; k++)); do cat "$work/tiny"; done > "$work/all"
"$scripts/measure.py" "the 64 sources one after another, check extract" --per "$rounds" round -- "$program" check extract 0 "$work/all"
"$scripts/measure.py" "the 64 sources one after another, show" --per "$rounds" round -- "$program" show "$work/all"

for name in same other changing; do
  mapfile -t words < <(row "$work/$name" 64)
  "$scripts/measure.py" "64 sources, sets $name, check merge" --per "$rounds" round -- "$program" check merge "${words[@]}"
  "$scripts/measure.py" "64 sources, sets $name, merge" --per "$rounds" round -- "$program" merge "${words[@]}"
done

# Which functions take the time of a round of 64 sources of tiny pictures.
mapfile -t words < <(row "$work/tiny" 64)
if command -v perf >/dev/null && perf record -q -o "$work/samples" -F 2000 "$program" merge "${words[@]}" >/dev/null 2>&1; then
  echo "64 sources of tiny pictures, merge, the share of each function:"
  perf report -i "$work/samples" --stdio --no-children 2>/dev/null | grep -E '^ +[0-9]' | sed -n '1,30s/ *$//p'
fi

# Which functions clear and copy memory, and how often: a scope of a table has 4 KiB. (Callgrind's counts of instructions say little about
# the time of these calls, because it counts their bytes one by one.)
mapfile -t words < <(row "$work/short" 64)
if command -v valgrind >/dev/null; then
  valgrind --tool=callgrind --callgrind-out-file="$work/calls" "$program" merge "${words[@]}" >/dev/null 2>"$work/log" \
    || { tail -5 "$work/log"; exit 1; }
  for of in memset 'mem(cpy|move)'; do
    echo "50 rounds of 64 sources of tiny pictures, merge, calls of $of:"
    callgrind_annotate --tree=caller "$work/calls" 2>/dev/null | awk -v of="__$of" '
      / < / { sub(/^.* < [^:]*:/, ""); sub(/ *\[.*/, ""); callers = callers $0 "\n" }
      / \* / { if ($0 ~ of) printf "%s", callers; callers = "" }' | tr -d , | sed -E 's/(.*) \(([0-9]+)x\)/\2 \1/' | sort -rn | sed -n '1,12p'
  done
fi
