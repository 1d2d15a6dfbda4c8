#!/bin/bash
# Runs `goosequince` without installing it: `rt try` compiles the program, without proofs and with run-time checks, and runs it once.
# Usage: scripts/try.sh WORDS   (the arguments of `goosequince`; needs the Rattle kit's `rt` on the path)
#
# Files are looked for in the current folder, as FILE and as X,Y=FILE. Standard input, standard output and the exit status are the
# program's, and so is standard error, except the lines that `rt try` adds, which are dropped. `rt try` runs the program in a folder of
# its own, which holds only the files that are given by --data NAME=FILE. So each file gets a short name there, and the program gets
# that name instead of yours.
#
# It compiles each time, which takes a minute or more. The program gets at most 60 seconds of running and 1 MiB of output.
set -uo pipefail
crate=$(cd "$(dirname "$0")/../crates/vx_app" && pwd) || exit 2
command -v rt > /dev/null || { echo "scripts/try.sh: rt, of the Rattle kit, isn't on the path" >&2; exit 2; }

words=() data=() count=0 left=$#
for word; do
    left=$((left - 1))
    place='' file=$word
    if [[ $word =~ ^([0-9]+,[0-9]+=)(.+)$ ]]; then
        place=${BASH_REMATCH[1]} file=${BASH_REMATCH[2]}
    elif [ $left -gt 0 ] && [[ $word =~ ^[0-9]+$ ]]; then
        file='' # a number, as the INDEX of extract
    fi
    if [ -n "$file" ] && [ -f "$file" ]; then
        data+=(--data "f$count=$(realpath "$file")")
        word=${place}f$count
        count=$((count + 1))
    fi
    words+=("$word")
done

lines=$(mktemp) || exit 2
trap 'rm -f "$lines"' EXIT
cd "$crate" || exit 2
rt try "${data[@]}" -- "${words[@]}" 2> "$lines"
status=$?
grep -vE '^((checked|interpreter|races|run|allocations)[:=].*)?$' "$lines" >&2
exit $status
