#!/bin/bash
# Tests the C library on broken streams, under the address and the undefined behaviour sanitizer.
# Usage: scripts/c-broken.sh DIR [COUNT]
#
# DIR is the folder that scripts/c-library.sh filled. COUNT merges (100,000 by default) and as many extractions are made from the stored
# streams, each with one to four changes and pushed in pieces. Each has to give the status, the bytes and the line of gq_run on the same
# bytes. With STREAMS=FOLDER it also uses the families of a folder, NAME_0.vvc .. with MANIFEST.json. With PROGRAM=FILE every fiftieth merge
# is also compared with that of the built program. It prints a line for each family, and stops with status 1 after the first with a
# difference. Needs cc (or CC=COMPILER) and python3.
set -euo pipefail
[ $# -ge 1 ] || { echo "usage: scripts/c-broken.sh DIR [COUNT]" >&2; exit 2; }
for tool in "${CC:-cc}" python3; do
  command -v "$tool" > /dev/null || { echo "scripts/c-broken.sh: $tool isn't there" >&2; exit 2; }
done
[ -f "$1/lib/libgoosequince.a" ] || { echo "scripts/c-broken.sh: $1 has no library; scripts/c-library.sh $1 makes it" >&2; exit 2; }
library=$(realpath "$1") count=${2:-100000}
[ -z "${STREAMS:-}" ] || STREAMS=$(realpath -e "$STREAMS") || exit 2
cd "$(dirname "$0")/.."
work=$(mktemp -d)
trap 'rm -rf "$work"' EXIT
data=crates/vx_app/data
mkdir "$work/files"
export FOLDER=$work/files
[ -z "${PROGRAM:-}" ] || PROGRAM=$(realpath -e "$PROGRAM") || exit 2

families() {
  echo "0,0=$data/a.266 64,0=$data/a.266"
  echo "0,0=$data/left.266 64,0=$data/right.266"
  [ -z "${STREAMS:-}" ] || scripts/families.py "$STREAMS"
}

"${CC:-cc}" -std=c99 -Wall -Wextra -pedantic -Werror -Wno-unused-function -O1 -g -fsanitize=address,undefined -fno-sanitize-recover=all \
  -I"$library/include" tests/c/broken.c "$library/lib/libgoosequince.a" -o "$work/broken"
mapfile -t all < <(families)
each=$(((count + ${#all[@]} - 1) / ${#all[@]}))
for n in "${!all[@]}"; do
  read -ra words <<< "${all[n]}"
  "$work/broken" "$each" "$((1000 + n))" "${words[@]}"
done
