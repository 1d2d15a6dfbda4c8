#!/bin/bash
# Measures the processor time and the peak resident memory of `extract` for one of four subpictures, compared with `cat`, `show` and
# `check extract` of the stream.
# Usage: scripts/bench-extract.sh PROGRAM [MIB [MERGE]]
#
# PROGRAM is the built program. The stream has MIB mebibytes (256 by default), with slices of about 64 KiB. It is made from MERGE, a merged
# stream with four subpictures, whose picture headers are units of their own; by default a merge of four small streams. A stream of tiny
# pictures is measured too. Not a test, because times depend on the machine.
set -euo pipefail
[ $# -ge 1 ] || { echo "usage: scripts/bench-extract.sh PROGRAM [MIB [MERGE]]" >&2; exit 2; }
program=$(realpath "$1")
mib=${2:-256}
scripts=$(realpath "$(dirname "$0")")
work=$(mktemp -d)
trap 'rm -rf "$work"' EXIT
merge=${3:-$work/four}
if [ $# -lt 3 ]; then
  PYTHONPATH=$scripts python3 -c 'import sys; from small_streams import Steady; sys.stdout.buffer.write(Steady(11, [0] * 16).bytes)' > "$work/one"
  "$program" merge "0,0=$work/one" "64,0=$work/one" "0,64=$work/one" "64,64=$work/one" > "$merge"
fi

PYTHONPATH=$scripts python3 - "$merge" "$work" "$mib" > "$work/names" <<'PY'
import sys
from long_streams import joined, longer, units_of, write
merge, work, mib = sys.argv[1], sys.argv[2], int(sys.argv[3])
units = units_of(open(merge, "rb").read())
pictures = sum(unit[1] >> 3 == 19 for unit in units)
for name, part, times in (("large", longer(units, 65536), None), ("tiny", units, max(1, 16000 // pictures))):
    stream = joined(part)
    times = times or max(1, mib * 1048576 // len(stream))
    write(f"{work}/{name}", stream, times)
    print(name, pictures * times)
PY

while read -r name pictures; do
  size=$(stat -c %s "$work/$name")
  cat "$work/$name" >/dev/null
  told="$name, $pictures pictures of $((size / pictures)) bytes"
  "$scripts/measure.py" "$told, cat" --bytes "$size" -- cat "$work/$name"
  for command in show "check extract 1" "extract 1"; do
    # The command is split into its arguments.
    "$scripts/measure.py" "$told, $command" --bytes "$size" --per "$pictures" picture -- "$program" $command "$work/$name"
  done
done < "$work/names"
