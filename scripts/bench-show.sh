#!/bin/bash
# Measures the processor time and the peak resident memory of `show` for byte streams, compared with `cat` of the same file.
# Usage: scripts/bench-show.sh PROGRAM [MIB]
#
# PROGRAM is the built program. Each stream has MIB mebibytes (256 by default). Not a test, because times depend on the machine.
set -euo pipefail
[ $# -ge 1 ] || { echo "usage: scripts/bench-show.sh PROGRAM [MIB]" >&2; exit 2; }
program=$(realpath "$1")
mib=${2:-256}
scripts=$(realpath "$(dirname "$0")")
work=$(mktemp -d)
trap 'rm -rf "$work"' EXIT

# The streams: units of 64 KiB of a type that isn't read, with bytes as entropy coding gives them; such units in which every third byte begins
# a pair of zeros; units of 100 bytes; one unit that never ends.
PYTHONPATH=$scripts python3 - "$work" "$mib" <<'PY'
import random, sys
from long_streams import ordinary, write
work, mib = sys.argv[1], int(sys.argv[2])
head, size, draw = b"\0\0\0\1\0\xe1", 65536 - 6, random.Random(1)
kinds = {
    "ordinary": b"".join(head + ordinary(draw, size) for _ in range(16)),
    "pairs": head + b"\0\0\5" * (size // 3) + b"\x80",
    "short": b"".join(head + ordinary(draw, 94) for _ in range(1024)),
    "endless": b"\x81" * 65536,
}
for name, part in kinds.items():
    write(f"{work}/{name}", part, mib * 1048576 // len(part))
with open(f"{work}/endless", "r+b") as file:
    file.write(head)
PY

for name in ordinary pairs short endless; do
  size=$(stat -c %s "$work/$name")
  cat "$work/$name" >/dev/null
  "$scripts/measure.py" "$name, cat" --bytes "$size" -- cat "$work/$name"
  "$scripts/measure.py" "$name, show" --bytes "$size" -- "$program" show "$work/$name"
done
echo "lines of short: $("$program" show "$work/short" | wc -l)"
