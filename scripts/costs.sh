#!/bin/bash
# Lists the twenty functions, and files of definitions or lemmas, whose check takes longest, with the part that takes most of each. After
# these it lists each further function that takes more than three seconds, and how many such functions there are.
# Usage: scripts/costs.sh [CRATE ..]   (every crate if none is named)
#
# It proves nothing, and reads what checks have kept. A check keeps each module in crates/CRATE/out/incremental as soon as it is
# done, so a module took the time between the module kept before it and itself. This is right for crates that were proved from
# nothing with one job each, as by `rt all check --jobs 4` in a new checkout. Several crates at once do no harm, but on a busy machine
# everything takes longer. What a later check proves anew comes after a pause. Pauses of up to two minutes count as the first module's
# time, and longer ones are left out.
#
# The parts of a function: Lts is what the borrow checker's rules leave to show, Answers is the answers to its goals, written or
# searched, Proof and Tie put both together.
set -euo pipefail
cd "$(dirname "$0")/../crates"
[ $# -gt 0 ] || set -- *
for crate; do
    kept=$crate/out/incremental
    [ -d "$kept" ] || { echo "$crate: no check has kept anything here" >&2; continue; }
    find "$kept/" -name "Rattle-$crate[-.]*.oantt" -printf '%T@ %f\n' | sort -n | awk -v crate="$crate" '
        {
            took = NR > 1 ? $1 - before : 0
            before = $1
            name = $2
            sub(/\.oantt$/, "", name)
            sub(/\.decls$/, "", name)
            sub(/^Rattle-[a-z_0-9]+[-.]/, "", name)
            part = ""
            while (match(name, /\.(Lts[^.]*|Proof|Answers|Invariants|Goals|Tie|Statement|Met|Code|Mir|Given|View|Layout|Kinds|Reads|Symbol|Key|Named|The[A-Z][A-Za-z]*)$/)) {
                part = substr(name, RSTART + 1)
                name = substr(name, 1, RSTART - 1)
            }
            if (took < 120) {
                sum[name] += took
                if (took > most[name]) { most[name] = took; which[name] = part }
            }
        }
        END { for (name in sum) printf "%.1f s  %s  %s  (%s %.1f)\n", sum[name], crate, name, which[name] == "" ? "text" : which[name], most[name] }'
done | sort -rn | awk '
    # A file of definitions or lemmas has no part.
    { slow = $1 > 3 && $0 !~ /\(text [0-9.]+\)$/ }
    NR <= 20 { print }
    NR > 20 && slow { rest = rest $0 "\n" }
    slow { count++; seconds += $1 }
    END {
        if (rest != "") printf "\nother functions above three seconds:\n%s", rest
        printf "\nfunctions above three seconds: %d, with %.0f s in all\n", count, seconds
    }'
