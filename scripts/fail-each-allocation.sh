#!/bin/bash
# Makes allocations fail, one in each run, and checks that lack of memory is handled: in every test, in runs of the program,
# and in pieces of the input of the gate's programs.
# Usage: scripts/fail-each-allocation.sh [SECONDS] [WHAT ..]
#
# Contracts leave open when memory runs out. This test shows that nothing else changes then. A run has to end as it does
# without a failure, or in one of these ways:
# - A test fails with an error for lack of memory.
# - `show` ends with status 4 after the lines of whole units; `extract`, `merge` and `play` after whole pictures; a command
#   that prints one result before it has printed anything.
# - A program of the gate reports it in one line of output, or ends after a prefix of its lines.
# Any other end is printed, and makes the status 1. The gate doesn't run it. It intercepts only calls of the C library.
#
# WHAT is `program`, a crate with tests, or a program of the gate; all of these by default. SECONDS (900 by default) are
# divided among the runs. If the share of a run isn't enough for each of its allocations, only every Nth fails, and the
# run's line has N. Of a program of the gate the first 24 pieces are run (PIECES=N: N pieces); quick_pieces.py sorts them so
# that these have some of each part.
# Everything is first proved and built by `rt test` and `rt run`, which doesn't count as time. With BUILT=FOLDER the programs
# in FOLDER/crates/*/out are used instead, and nothing is proved. Needs cc.
set -euo pipefail
cd "$(dirname "$0")/.."
work=$(mktemp -d)
trap 'rm -rf "$work"' EXIT
seconds=900
case ${1:-} in [0-9]*) seconds=$1; shift ;; esac
built=${BUILT:-$PWD}
gate='vx_calls vx_vectors vx_cases'
neither=0 jobs=0 counting=1 input=/dev/null

cat > "$work/fail.c" <<'C'
// Allocations of the C library, of which number FAIL_ALLOC fails. The file COUNT receives how many were made.
#include <stdio.h>
#include <stdlib.h>
void *__libc_malloc(size_t);
void *__libc_realloc(void *, size_t);
static long made, failing;
__attribute__((constructor)) static void begin(void) { failing = atol(getenv("FAIL_ALLOC")); }
void *malloc(size_t n) { return ++made == failing ? 0 : __libc_malloc(n); }
void *realloc(void *p, size_t n) { return ++made == failing ? 0 : __libc_realloc(p, n); }
__attribute__((destructor)) static void tell(void) {
    long all = made;
    FILE *count = fopen(getenv("COUNT"), "w");
    if (count) { fprintf(count, "%ld\n", all); fclose(count); }
}
C
cc -shared -fPIC -O1 -o "$work/fail.so" "$work/fail.c"

# Runs a command whose allocation $1 fails, or none for 0. `status` is its status; the files out and err have its output.
run() {
  status=0
  { timeout 60 env FAIL_ALLOC="$1" COUNT="$work/count" LD_PRELOAD="$work/fail.so" "${@:2}" \
    < "$input" > "$work/out" 2> "$work/err" || status=$?; } 2> "$work/shell"
}

# ---- how a run may end if memory runs out

# Checks that `out` is a prefix of the output without a failure.
is_front() {
  length=$(stat -c %s "$work/out")
  cmp -s -n "$length" "$work/out" "$work/whole"
}

# Checks that a test failed for lack of memory: by its error, or by a result that it compares with another.
test_wants() {
  case $status in
    101) head -1 "$work/err" | grep -qE '^error: (AllocError|AllocFailed|Memory|Kind\(OutOfMemory\))' ;;
    134) grep -qE '^ *left: .*\b(Memory|AllocError)\b' "$work/err" ;;
    *) false ;;
  esac
}

# Checks that the program ended with status 4 after a prefix of its output, and with no other line.
program_wants() {
  [ "$status" = 4 ] && is_front && { [ ! -s "$work/err" ] || [ "$(cat "$work/err")" = "no memory" ]; }
}

# Checks that it did so after whole lines.
lines_want() {
  program_wants && [ -z "$(tail -c1 "$work/out")" ]
}

# Checks that it did so and wrote nothing.
nothing_wants() {
  program_wants && [ "$length" = 0 ]
}

# Checks that it did so after whole pictures: `ends` has the place after each.
stream_wants() {
  program_wants && [[ " 0 $ends " = *" $length "* ]]
}

# Checks that a program of the gate ended for lack of memory after a prefix of its lines (vx_vectors then reports that its hexadecimal
# can't be read), or that it continued and reported it in one line: that of a case with status 4 and a prefix of its output, or of a sink
# that grows.
gate_wants() {
  if [ "$status" != 0 ]; then
    is_front && [ "$(wc -l < "$work/err")" = 1 ] && grep -qiE '(memory allocation failed|out of memory|digits each, or too many)$' "$work/err"
    return
  fi
  diff --unchanged-line-format= --old-line-format=%L --new-line-format=%L "$work/whole" "$work/out" > "$work/lines"
  [ "$(wc -l < "$work/lines")" = 2 ] && awk '
    NR == 1 { sub(/.* out=/, ""); whole = $0 }
    NR == 2 && /^status=4 err=(-|no_memory|[a-z_]*~) out=/ { sub(/.* out=/, ""); told = $0 == "-" || index(whole, $0) == 1 }
    NR == 2 && /(^| )failed( |$)/ { told = 1 }
    END { exit !told }' "$work/lines"
}

# ---- runs

now() { echo "${EPOCHREALTIME/[.,]/}"; }

# Makes an allocation of a command fail, and counts how the run ends, as WANTS judges: NAME WANTS NUMBER COMMAND ..
fail_one() {
  local name=$1 wants=$2 n=$3; shift 3
  run "$n" "$@"
  if $wants; then memory=$((memory + 1))
  elif [ "$status" = "$usual" ] && cmp -s "$work/out" "$work/whole" && cmp -s "$work/err" "$work/told"; then
    ever=$((ever + 1))
  else
    neither=1
    echo "$name, allocation $n: status $status, $(head -c 200 "$work/err")"
  fi
}

# Makes allocations of a command fail: each, or as many as its share of the time allows, judged by the time of the last one.
fail_each() {
  local name=$1 wants=$2 memory=0 ever=0 usual count begin part step=1 n; shift 2
  if [ "$counting" = 1 ]; then jobs=$((jobs + 1)); return; fi
  part=$(((end - $(now)) / jobs)) jobs=$((jobs - 1))
  if [ "$part" -le 0 ]; then echo "$name: not tried, the time is over"; return; fi
  run 0 "$@"
  usual=$status count=$(cat "$work/count")
  mv "$work/out" "$work/whole"; mv "$work/err" "$work/told"
  begin=$(now)
  [ "$count" = 0 ] || fail_one "$name" "$wants" "$count" "$@"
  step=$((1 + count * ($(now) - begin) / part))
  for ((n = (step + 1) / 2; n < count; n += step)); do fail_one "$name" "$wants" "$n" "$@"; done
  echo "$name: $count allocations, one of $step failed, want of memory at $memory, as ever at $ever"
}

# Proves and builds what `rt WORD ..` runs in a crate, once.
build() {
  [ "$counting" = 1 ] && [ -z "${BUILT:-}" ] || return 0
  (cd "crates/$1" && rt "${@:2}" < /dev/null > "$work/log" 2>&1) || { tail -40 "$work/log"; exit 1; }
}

# Makes allocations of each test of a crate fail.
fail_tests() {
  local tests=$built/crates/$1/out/$1_tests test
  build "$1" test
  for test in $("$tests" --list | grep -o '^.*: test$' | cut -d' ' -f1); do
    fail_each "$1 ${test%:}" test_wants "$tests" "${test%:}"
  done
}

# Makes allocations of a program of the gate fail, in pieces of its input. Pieces that keep the output of a case are left out, because
# that output isn't printed.
fail_pieces() {
  local piece
  build "$1" run
  mkdir -p "$work/$1"
  scripts/quick_pieces.py cut "$1" "$work/$1"
  for piece in $(grep -L '^keep ' "$work/$1"/* | head -n "${PIECES:-24}"); do
    input=$piece
    fail_each "$1, piece ${piece##*-}" gate_wants "$built/crates/$1/out/$1"
  done
  input=/dev/null
}

# Makes the streams that the program is run on: a stored one once, twice, three times, and before a broken unit; and a stored
# merge three times, and that before a broken unit.
make_streams() {
  local data=crates/vx_app/data broken='\0\0\1\x80\x79'
  one=$work/stored.266 twice=$work/twice.266 thrice=$work/thrice.266 refused=$work/refused.266
  merge=$work/merge.266 cut=$work/cut.266
  cat "$data/a.266" > "$one"
  cat "$one" "$one" > "$twice"
  cat "$one" "$twice" > "$thrice"
  { cat "$one"; printf "$broken"; } > "$refused"
  cat "$data/m.266" "$data/m.266" "$data/m.266" > "$merge"
  { cat "$merge"; printf "$broken"; } > "$cut"
}

# Makes allocations of the commands on one file fail.
fail_single() {
  fail_each "show, a stored stream" lines_want "$program" show "$one"
  fail_each "show, a refused stream" lines_want "$program" show "$refused"
  fail_each "show, three pictures" lines_want "$program" show "$merge"
  fail_each "show, three pictures and a broken unit" lines_want "$program" show "$cut"
  picture=$("$program" extract 1 crates/vx_app/data/m.266 | wc -c)
  ends="$picture $((2 * picture)) $((3 * picture))"
  fail_each "extract, a stored merge" stream_wants "$program" extract 1 "$merge"
  fail_each "extract, a refused one" stream_wants "$program" extract 1 "$cut"
  fail_each "check extract, a stored merge" nothing_wants "$program" check extract 1 "$merge"
}

# Makes allocations of the commands on several files fail. The end of sequence that is written before joined pictures has 6 bytes.
fail_several() {
  fail_each "check merge, two stored streams" nothing_wants "$program" check merge "0,0=$twice" "64,0=$twice"
  fail_each "check merge, one above the other" nothing_wants "$program" check merge "0,0=$twice" "32,0=$twice"
  fail_each "verify merge, a stored merge" nothing_wants "$program" verify merge "$merge" "0,0=$thrice" "64,0=$thrice"
  fail_each "verify merge, with a shorter source" nothing_wants "$program" verify merge "$merge" "0,0=$thrice" "64,0=$twice"
  picture=$("$program" merge "0,0=$one" "64,0=$one" | wc -c)
  ends="$picture $((2 * picture))"
  fail_each "merge, two stored streams" stream_wants "$program" merge "0,0=$twice" "64,0=$twice"
  ends="$picture $((2 * picture + 6))"
  fail_each "play, two files beside one" stream_wants "$program" play "0,0=$one" "64,0=$twice" "0,0=$one"
  fail_each "play, of which one is refused behind its picture" stream_wants \
    "$program" play "0,0=$twice" "64,0=$one" "64,0=$refused"
}

# Makes allocations of the program fail.
fail_program() {
  program=$built/crates/vx_app/out/vx_app
  build vx_app run -- show data/a.266
  make_streams
  fail_single
  fail_several
  fail_each "--explain, a rule" nothing_wants "$program" --explain M15
  if "$program" trial 7 4 10 > /dev/null 2>&1 || [ $? != 2 ]; then
    fail_each "trial 7 4 10" nothing_wants "$program" trial 7 4 10
  fi
}

# Makes allocations of everything that is named fail. If `counting` is 1 it only builds what the runs need, and counts them.
fail_all() {
  local name
  for name; do
    if [ "$name" = program ]; then fail_program
    elif [[ " $gate " = *" $name "* ]]; then fail_pieces "$name"
    else fail_tests "$name"; fi
  done
}

[ $# != 0 ] || set -- program $(grep -rl '#\[test\]' crates/*/src | cut -d/ -f2 | sort -u) $gate
fail_all "$@"
counting=0 end=$(($(now) + seconds * 1000000))
fail_all "$@"
exit "$neither"
