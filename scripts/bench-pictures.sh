#!/bin/bash
# Measures the processor time and the peak resident memory of `show` for the pictures of a stream.
# Usage: scripts/bench-pictures.sh PROGRAM [COPIES [STREAM]]
#
# PROGRAM is the built program. STREAM is repeated COPIES times (8000 by default). It begins with an IDR picture, and has pictures of several
# slices whose headers are units of their own; by default it is a merge of four small streams. It is measured as it is, with longer slices,
# with slices as long as a picture may have, and with 64 PPS units before each picture. Pictures of 1,000 slices are measured too. Not a
# test, because times depend on the machine.
set -euo pipefail
[ $# -ge 1 ] || { echo "usage: scripts/bench-pictures.sh PROGRAM [COPIES [STREAM]]" >&2; exit 2; }
program=$(realpath "$1")
copies=${2:-8000}
scripts=$(realpath "$(dirname "$0")")
work=$(mktemp -d)
trap 'rm -rf "$work"' EXIT
stream=${3:-$work/four}
if [ $# -lt 3 ]; then
  PYTHONPATH=$scripts python3 -c 'import sys; from small_streams import Steady; sys.stdout.buffer.write(Steady(11, [0] * 5).bytes)' > "$work/one"
  "$program" merge "0,0=$work/one" "64,0=$work/one" "0,64=$work/one" "64,64=$work/one" > "$stream"
fi

cat > "$work/make.py" <<'PY'
import sys
from long_streams import is_slice, joined, longer, units_of, write
from small_streams import unit
stream, copies, work = open(sys.argv[1], "rb").read(), int(sys.argv[2]), sys.argv[3]
units = units_of(stream)
slices = sum(map(is_slice, units))
pictures = sum(u[1] >> 3 == 19 for u in units)


def make(name, units, times):
    write(f"{work}/{name}", joined(units), times)
    print(name, len(units) * times)


make("copies", units, copies)
make("longer", longer(units, 65_536), max(1, copies // 8))
make("longest", longer(units, min(8_388_000, 33_000_000 * pictures // slices)), max(1, 8 // pictures))
first = next(n for n, u in enumerate(units) if u[1] >> 3 == 16)
make("sets", units[:first] + [units[first]] * 64 + units[first + 1 :], max(1, copies // 8))


def ue(number):
    bits = f"{number + 1:b}"
    return "0" * (len(bits) - 1) + bits


def unit_of(kind, bits):
    """The unit of these bits, followed by a one and zeros."""
    bits += "1" + "0" * (-(len(bits) + 1) % 8)
    return unit(kind, 0, bytes(int(bits[n : n + 8], 2) for n in range(0, len(bits), 8)))


# 2,560 by 1,600 samples. Each CTU of 64 by 64 is a subpicture of one slice, with ids of 10 bits. There are forty tiles, each a column of CTUs.
sps = "0000" "0000" "000" "00" "01" "1" + "0000001" "0" "00110011" "100" "00000" "00000000" + "00" + ue(2560) + ue(1600) + "01"
sps += ue(999) + "11" + "000000" "00000" + ue(9) + "0" + "10000000000011110111100000000000110000000001100000100000000000000"
pps = "000000" "0000" "0" + ue(2560) + ue(1600) + "00000" "01" + "1" "1" + ue(0) + ue(24) + "0110" + "011000010000000000"
sets = [unit_of(15, sps), unit_of(16, pps)]
numbered = [unit_of(8, f"0{n:010b}01") + b"\x5a\xa7\x80" for n in range(1000)]
make("slices", sets + ([bytes.fromhex("00998840")] + numbered) * 10, max(1, copies // 100))
PY

PYTHONPATH=$scripts python3 "$work/make.py" "$stream" "$copies" "$work" > "$work/names"
while read -r name units; do
  size=$(stat -c %s "$work/$name")
  cat "$work/$name" >/dev/null
  "$scripts/measure.py" "$name, $units units, cat" --bytes "$size" -- cat "$work/$name"
  "$scripts/measure.py" "$name, $units units, show" --bytes "$size" --per "$units" unit -- "$program" show "$work/$name"
done < "$work/names"
