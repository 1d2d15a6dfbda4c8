#!/bin/bash
# Runs the program so that it ends with each of its statuses, and compares the status, the line on standard error, and the output.
# Usage: scripts/statuses.sh [PROGRAM]
#
# PROGRAM is the program as scripts/install.sh installs it. Without it each run is by the Rattle kit's `rt try`, without proofs, and takes a
# minute or more. The runs show that a merge of two different files is the stored one, that each file is opened by its name, and that a
# failed write, also the last one, and lack of memory are reported. Two runs to a full disk and one with an argument that isn't valid UTF-8
# need PROGRAM; the run without memory needs `rt try`. It prints a line for each run; the last one is `N passed, M failed`.
set -uo pipefail
program=${1:-}
[ -z "$program" ] || program=$(realpath "$program")
cd "$(dirname "$0")/../crates/vx_app"
work=$(mktemp -d)
trap 'rm -rf "$work"' EXIT
passed=0 failed=0

# Counts run $1, whose status is $2: right with status $3, line $4 on standard error and the output in file $5.
tell() {
    local name=$1 status=$2 line=$4
    if [ "$status" = "$3" ] && [ "$(head -n 1 "$work/err")" = "$line" ] && cmp -s "$work/out" "$5"; then
        passed=$((passed + 1))
        echo "$name: status $status"
    else
        failed=$((failed + 1))
        echo "$name: status $status and $(head -n 1 "$work/err"), not $3 and $line, or else what is written differs"
    fi
}

# Runs the program with the arguments after $3. It has to end with status $1, line $2 and the output in file $3.
ends() {
    local status=$1 line=$2 wanted=$3
    shift 3
    if [ -n "$program" ]; then
        (cd data && "$program" "$@") > "$work/out" 2> "$work/err"
    else
        rt try --data left.266=data/left.266 --data right.266=data/right.266 -- "$@" > "$work/out" 2> "$work/all"
    fi
    local came=$?
    # `rt try` also reports on standard error how the run went.
    [ -n "$program" ] || grep -vE '^(checked|interpreter|run|allocations)[:=]' "$work/all" > "$work/err"
    tell "$*" "$came" "$status" "$line" "$wanted"
}

none=/dev/null
ends 0 "" stdout merge 0,0=left.266 64,0=right.266
ends 1 "E2 picture 0" $none extract 1 left.266
ends 2 "words not understood" $none show left.266 right.266
ends 3 "read fault source 1" $none merge 0,0=left.266 64,0=absent.266
ends 3 "read fault source 2" stdout play 0,0=left.266 64,0=right.266 0,0=absent.266
if [ -n "$program" ]; then
    ends 2 "" $none show $'\xff'
    : > "$work/out"
    (cd data && "$program" merge 0,0=left.266 64,0=right.266) > /dev/full 2> "$work/err"
    tell "merge to a full disk" $? 3 "write fault" $none
    (cd data && "$program" show left.266) > /dev/full 2> "$work/err"
    tell "show to a full disk" $? 3 "write fault" $none
else
    rt try --data left.266=data/left.266 --fail-alloc 1 -- show left.266 > "$work/out" 2> "$work/all"
    came=$?
    : > "$work/err"
    tell "show without memory" $came 4 "" $none
fi
echo "$passed passed, $failed failed"
[ "$failed" = 0 ]
