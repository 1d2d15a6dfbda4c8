#!/bin/bash
# Proves and builds the C library, installs it in a folder, and tests it there.
# Usage: scripts/c-library.sh DIR [COUNT]
#
# DIR receives lib/libgoosequince.a, include/goosequince.h and lib/pkgconfig/goosequince.pc. The programs of tests/c and examples are then
# compiled with it and run: as they are, under valgrind, and with the address and the undefined behaviour sanitizer. If valgrind, a sanitizer
# or a C++ compiler is missing, a line says so. COUNT broken merges of each family are tried (2,000 by default).
# With ARCHIVE=FILE this archive is tested, and nothing is proved or built. With STREAMS=FOLDER the families of a folder, NAME_0.vvc .. with
# MANIFEST.json, are merged too. The last line is `examples: ok`.
# Needs the Rattle kit's `rt` on the path, cc (or CC=COMPILER), ar and python3.
set -euo pipefail
[ $# -ge 1 ] || { echo "usage: scripts/c-library.sh DIR [COUNT]" >&2; exit 2; }
cc=${CC:-cc} cxx=${CXX:-c++} tools=("$cc" ar python3)
[ -n "${ARCHIVE:-}" ] || tools+=(rt)
for tool in "${tools[@]}"; do
  command -v "$tool" > /dev/null || { echo "scripts/c-library.sh: $tool isn't there" >&2; exit 2; }
done
[ -z "${ARCHIVE:-}" ] || ARCHIVE=$(realpath -e "$ARCHIVE") || exit 2
[ -z "${STREAMS:-}" ] || STREAMS=$(realpath -e "$STREAMS") || exit 2
mkdir -p "$1"
to=$(cd "$1" && pwd) count=${2:-2000}
cd "$(dirname "$0")/.."
work=$(mktemp -d)
trap 'rm -rf "$work"' EXIT
data=$PWD/crates/vx_app/data
strict=(-std=c99 -Wall -Wextra -pedantic -Werror -Wno-unused-function -O1 -g)

# Makes the archive from the library of crate vx_c, and the three functions through which it calls malloc, realloc and free.
build_library() {
  mkdir -p "$to/lib/pkgconfig" "$to/include"
  cp include/goosequince.h "$to/include/"
  if [ -n "${ARCHIVE:-}" ]; then
    cp "$ARCHIVE" "$to/lib/libgoosequince.a"
  else
    scripts/prove-below.py vx_c >&2
    (cd crates/vx_c && rt lib > "$work/log" 2>&1) || { tail -40 "$work/log" >&2; exit 1; }
    kit=$(dirname "$(rt doc)")
    (cd "$work" && ar x "$kit/c/liblibc_c.a")
    cp crates/vx_c/out/libvx_c.a "$to/lib/libgoosequince.a"
    ar rs "$to/lib/libgoosequince.a" "$work"/*.o 2> /dev/null
  fi
  cat > "$to/lib/pkgconfig/goosequince.pc" <<PC
prefix=$to
Name: goosequince
Description: Merges and extracts subpictures of VVC streams (H.266)
Version: $(sed -n 's/^#define GQ_VERSION \([0-9]*\)u$/\1/p' include/goosequince.h)
Cflags: -I\${prefix}/include
Libs: -L\${prefix}/lib -lgoosequince
PC
  echo "$to: libgoosequince.a, $(stat -c %s "$to/lib/libgoosequince.a") bytes"
}

# Compiles a program of tests/c or examples with the library: FILE NAME FLAGS ..
compile() {
  local wraps=()
  [[ $1 != */memory.c ]] || wraps=(-Wl,--wrap=malloc,--wrap=realloc,--wrap=free)
  "$cc" "${strict[@]}" "${@:3}" -I"$to/include" "$1" "$to/lib/libgoosequince.a" "${wraps[@]}" -pthread -o "$work/$2"
}

# The optional tools that are installed.
echo 'int main(void) { return 0; }' > "$work/none.c"
"$cc" -fsanitize=address,undefined "$work/none.c" -o "$work/none" 2> /dev/null && "$work/none" && sanitizers=1 || sanitizers=
command -v valgrind > /dev/null && valgrind=1 || valgrind=
command -v "$cxx" > /dev/null && plus=1 || plus=
[ -n "$sanitizers" ] || echo "$cc has no sanitizers: nothing is run with them"
[ -n "$valgrind" ] || echo "valgrind isn't there: nothing is run under it"
[ -n "$plus" ] || echo "$cxx isn't there: nothing is compiled as C++"

# Runs a program of tests/c as it is, under valgrind, and with sanitizers.
run_each() {
  local name=$1; shift
  compile "tests/c/$name.c" "$name"
  "$work/$name" "$@"
  if [ -n "$valgrind" ] && [ "$name" != broken ]; then
    valgrind -q --error-exitcode=9 --leak-check=full --errors-for-leak-kinds=all "$work/$name" "$@" > /dev/null
  fi
  if [ -n "$sanitizers" ]; then
    compile "tests/c/$name.c" "$name-sanitized" -fsanitize=address,undefined -fno-sanitize-recover=all
    "$work/$name-sanitized" "$@" > /dev/null
  fi
  echo "$name: ok"
}

# Runs the examples, also as C++, and compares their output with the stored merge.
try_examples() {
  compile examples/merge.c merge-example
  "$work/merge-example" "0,0=$data/a.266" "64,0=$data/a.266" | cmp - "$data/m.266"
  if [ -n "$plus" ]; then
    "$cxx" -x c++ -std=c++11 -Wall -Wextra -pedantic -Werror -I"$to/include" examples/merge.c -x none "$to/lib/libgoosequince.a" -o "$work/merge-plus"
    "$work/merge-plus" "0,0=$data/a.266" "64,0=$data/a.266" | cmp - "$data/m.266"
  fi
  "$cc" -shared -o "$work/libgoosequince.so" -Wl,--whole-archive "$to/lib/libgoosequince.a" -Wl,--no-whole-archive
  python3 examples/merge.py "$work/libgoosequince.so" "0,0=$data/a.266" "64,0=$data/a.266" | cmp - "$data/m.266"
  echo "examples: ok"
}

build_library
run_each run "$data/a.266" "$data/m.266"
run_each edges "$data/a.266" "$data/m.266"
run_each memory "$data/a.266" "$data/m.266"
run_each merge "0,0=$data/a.266" "64,0=$data/a.266"
run_each merge "0,0=$data/left.266" "64,0=$data/right.266"
run_each threads "0,0=$data/left.266" "64,0=$data/right.266"
run_each broken "$count" 1 "0,0=$data/a.266" "64,0=$data/a.266"
run_each broken "$count" 2 "0,0=$data/left.266" "64,0=$data/right.266"
if [ -n "${STREAMS:-}" ]; then
  while read -ra words; do
    run_each merge "${words[@]}"
    run_each broken "$count" 3 "${words[@]}"
  done < <(scripts/families.py "$STREAMS")
fi
try_examples
