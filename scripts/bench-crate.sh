# Functions for the scripts that time calls of crates. They source it from the top of the repository, with a folder of their own in `work`.

# Copies crates, and adds a program NAME that uses some of them. Sets `bench` to its folder.
# Usage: bench_crate NAME 'CRATE ..' CRATE ..
bench_crate() {
    local name=$1 uses=$2 it
    shift 2
    bench=$work/crates/$name
    cp -a HANDLES "$work"
    mkdir "$work/crates"
    for it in "$@"; do
        cp -a "crates/$it" "$work/crates"
        grep "^$it:" crates.txt
    done > "$work/crates.txt"
    echo "$name: $uses" >> "$work/crates.txt"
    mkdir -p "$bench/src" "$bench/specs" "$bench/proofs"
    touch "$bench/specs/Lib.antt" "$bench/proofs/Lib.antt"
}

# Proves and builds the program, with the command in RT, by default rt, and runs it three times.
run_bench() {
    cd "$bench"
    "${RT:-rt}" run > "$work/times" 2> "$work/log" || { grep -v ': proved' "$work/log" | tail -60; exit 1; }
    uptime
    for _ in 1 2 3; do "out/$(basename "$bench")"; done
}
