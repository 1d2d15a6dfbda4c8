#!/bin/bash
# Runs stored cases of the gate without proofs and compares each result. It begins with the checks of the documents.
# Usage: scripts/quick-test.sh [SECONDS]     as many cases as fit into this time, 170 seconds by default, with the build
#        scripts/quick-test.sh WORD ..       the cases that have one of these words, such as M8, verify or gray2, in at most 50 seconds
#                                            after the build
# A word is looked for in the comment above a case, in its command and the names of its files, and in the line that it has to report.
# `rt try` builds the programs, with run-time checks, which takes one to two minutes. The pieces of the input that run first have some of
# each part of it. The last lines say for each program how many results are right, wrong and not tried, and end with `N passed, M failed`.
# Needs the Rattle kit's `rt` on the path.
set -euo pipefail
cd "$(dirname "$0")/.."
words=() seconds=170
if [[ ${1:-} =~ ^[0-9]+$ ]]; then seconds=$1; elif [ $# -gt 0 ]; then words=(--words "$@") seconds=900; fi
end=$((SECONDS + seconds))
work=$(mktemp -d)
trap 'rm -rf "$work"' EXIT

status=0 passed=0 failed=0
if [ -x scripts/check-docs.py ]; then
    if scripts/check-docs.py; then passed=1; else failed=1 status=1; fi
fi

# Runs the program of a crate on the pieces in a folder, up to the end, or with words for 50 seconds after the build.
run() {
    local out=$work/$2.out err=$work/$2.err began=
    (cd "crates/$1" && exec timeout $((end - SECONDS)) rt try --seconds 600 --cases "$work/$2" > "$out" 2> "$err") &
    local job=$!
    while kill -0 "$job" 2> /dev/null; do
        sleep 1
        [ ${#words[@]} -gt 0 ] && [ -z "$began" ] && grep -q '^case=' "$err" 2> /dev/null && began=$SECONDS
        if [ -n "$began" ] && [ $((SECONDS - began)) -ge 50 ]; then
            kill "$job" 2> /dev/null || true
            break
        fi
    done
    wait "$job" || true
}

crates=()
for crate in vx_calls vx_vectors vx_cases; do
    [ -f "crates/$crate/stdin" ] || continue
    crates+=("$crate")
    folders=("$crate")
    # The cases take longest, so two processes share them.
    [ "$crate" != vx_cases ] || [ ${#words[@]} -gt 0 ] || folders+=("$crate-more")
    for name in "${folders[@]}"; do mkdir "$work/$name"; done
    scripts/quick_pieces.py cut "$crate" "${folders[@]/#/$work/}" "${words[@]}"
    for name in "${folders[@]}"; do
        if [ -n "$(ls "$work/$name")" ]; then run "$crate" "$name" & fi
    done
done
wait

untried=0
for crate in "${crates[@]}"; do
    files=("$work/$crate"*.out)
    if [ ! -e "${files[0]}" ]; then files=(/dev/null); fi
    if ! said=$(scripts/quick_pieces.py compare "$crate" "${files[@]}" "${words[@]}") && [ "${files[0]}" != /dev/null ]; then
        status=1
        tail -n 3 "$work/$crate.err" >&2
    fi
    echo "$crate: $said"
    read -r right _ wrong _ rest _ <<< "$said"
    passed=$((passed + right)) failed=$((failed + wrong)) untried=$((untried + rest))
done
if [ ${#words[@]} -gt 0 ] && ! compgen -G "$work/*.out" > /dev/null; then
    echo "no case has one of these words: ${words[*]:1}" >&2
    status=1
fi
echo "$untried cases not tried; rt ci tries all"
echo "$passed passed, $failed failed"
exit $((failed > 0 || status))
