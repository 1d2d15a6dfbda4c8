#!/bin/bash
# Proves and builds the program, installs it in a folder as `goosequince`, and runs the commands of the guide with it. The man page goes
# to share/man/man1 next to a folder bin, and otherwise into the folder itself. Each proved crate has a line on standard error.
# Usage: scripts/install.sh DIR [JOBS]   (needs the Rattle kit's `rt` on the path; JOBS checks run at once, by default one a processor)
set -euo pipefail
case $# in 1|2) ;; *) echo "usage: scripts/install.sh DIR [JOBS]" >&2; exit 2;; esac
mkdir -p "$1"
to=$(cd "$1" && pwd)
scripts=$(cd "$(dirname "$0")" && pwd)
cd "$scripts/../crates/vx_app"

echo "proving the crates below the program, which takes long if none was proved before (docs/generated/COSTS.md)" >&2
"$scripts/prove-below.py" ${2:+--jobs "$2"} vx_app >&2

# `rt run` proves the program itself, builds it in out/, and runs it.
rt run --jobs 1 -- --version > out.log 2>&1 || { cat out.log >&2; rm -f out.log; exit 1; }
rm -f out.log
echo "vx_app: proved and built" >&2
install -m 755 out/vx_app "$to/goosequince"
pages=$to
[ "$(basename "$to")" != bin ] || pages=$(dirname "$to")/share/man/man1
mkdir -p "$pages"
"$to/goosequince" --help | "$scripts/man-page.py" > "$pages/goosequince.1"

"$to/goosequince" --version
"$scripts/guide.sh" "$to/goosequince"
film=$(cd "$scripts/../examples/film" && pwd)
echo "A first merge:"
echo "    $to/goosequince merge 0,0=$film/left.266 256,0=$film/right_low.266 > merged.266"
echo "    $to/goosequince show merged.266"
