#!/bin/bash
# Measures merges by the C library: pushed in pieces of 1,500 and of 65,536 bytes, and by gq_run, compared with the program on the same files.
# Usage: scripts/bench-c.sh DIR PROGRAM [REPEATS]
#
# DIR is the folder that scripts/c-library.sh filled, PROGRAM the built program, or - for none. Each file of a family of streams is repeated
# REPEATS times (2,000 by default). With STREAMS=FOLDER the families are those of a folder, NAME_0.vvc .. with MANIFEST.json, instead of the
# stored streams.
#
# It measures processor time, peak resident memory, the time from the call that pushes the last byte of a picture until its merge is ready,
# and the least stack of a merge. It prints a line for each measurement, and a summary at the end. It takes a minute or two. Not a test,
# because times depend on the machine. Needs cc (or CC=COMPILER) and python3.
set -euo pipefail
[ $# -ge 2 ] || { echo "usage: scripts/bench-c.sh DIR PROGRAM [REPEATS]" >&2; exit 2; }
for tool in "${CC:-cc}" python3; do
  command -v "$tool" > /dev/null || { echo "scripts/bench-c.sh: $tool isn't there" >&2; exit 2; }
done
[ -f "$1/lib/libgoosequince.a" ] || { echo "scripts/bench-c.sh: $1 has no library; scripts/c-library.sh $1 makes it" >&2; exit 2; }
[ "$2" = - ] || [ -x "$2" ] || { echo "scripts/bench-c.sh: $2 is no program" >&2; exit 2; }
library=$(realpath "$1") program=$2 repeats=${3:-2000}
[ "$program" = - ] || program=$(realpath "$program")
[ -z "${STREAMS:-}" ] || STREAMS=$(realpath -e "$STREAMS") || exit 2
scripts=$(realpath "$(dirname "$0")")
cd "$scripts/.."
work=$(mktemp -d)
trap 'rm -rf "$work"' EXIT
data=crates/vx_app/data
measure=$work/measure

"${CC:-cc}" -std=c99 -Wall -Wextra -pedantic -Werror -Wno-unused-function -O2 -I"$library/include" tests/c/measure.c \
  "$library/lib/libgoosequince.a" -pthread -o "$measure"

families() {
  if [ -n "${STREAMS:-}" ]; then
    scripts/families.py "$STREAMS"
  else
    echo "0,0=$data/a.266 64,0=$data/a.266"
    echo "0,0=$data/left.266 64,0=$data/right.266"
  fi
}

# Prints the arguments of a family, with each file repeated.
repeated() {
  local word k=0
  for word in "$@"; do
    python3 -c 'import sys; open(sys.argv[2], "wb").write(open(sys.argv[1], "rb").read() * int(sys.argv[3]))' "${word#*=}" "$work/$k" "$repeats"
    echo "${word%%=*}=$work/$k"
    k=$((k + 1))
  done
}

# Measures one way to merge a family: FAMILY WAY COMMAND ..
timed() {
  "$scripts/measure.py" "$1, $2" -- "${@:3}" | tee -a "$work/$2"
}

# Prints the least stack of a thread, in KiB, with which a merge ends.
least_stack() {
  local low=16 high=1024 mid
  while ((high - low > 8)); do
    mid=$(((low + high) / 2))
    if (exec "$measure" stack "$mid" "$@" > /dev/null 2>&1); then high=$mid; else low=$mid; fi
  done
  echo "$high"
}

# Prints the measurements of one way: the times of all families, and the smallest and largest peak of memory.
summed() {
  [ ! -f "$work/$1" ] || awk -v way="$1" '
    { match($0, /[0-9.]+ ms/); took = took (NR > 1 ? ", " : "") sprintf("%.0f", substr($0, RSTART) + 0)
      match($0, /peak [0-9]+/); peak = (substr($0, RSTART + 5) + 0) * 1024 / 1e6
      if (NR == 1 || peak < least) least = peak
      if (peak > most) most = peak }
    END { printf "  %s: %s ms, resident at most %.1f to %.1f MB\n", way, took, least, most }' "$work/$1"
}

names=() stacks=()
while read -ra family; do
  name=$(basename "${family[0]#*=}")
  names+=("${name%%[_.]*}")
  mapfile -t words < <(repeated "${family[@]}")
  if [ "$program" != - ]; then
    timed "$name" "the program" "$program" merge "${words[@]}"
    "$program" merge "${words[@]}" | cmp - <("$measure" push 1500 "${words[@]}")
  fi
  timed "$name" gq_run "$measure" whole "${words[@]}"
  timed "$name" "pieces of 1,500" "$measure" push 1500 "${words[@]}"
  timed "$name" "pieces of 65,536" "$measure" push 65536 "${words[@]}"
  stacks+=("$(least_stack "${family[@]}")")
done < <(families)
echo "summary of ${names[*]}, $repeats times:"
for way in "the program" gq_run "pieces of 1,500" "pieces of 65,536"; do summed "$way"; done
echo "  least stack: ${stacks[*]} KiB"
echo "  to a merge of 4, 16 and 64 sources: $("$measure" latency "$data/a.266")"
