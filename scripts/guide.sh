#!/bin/bash
# Runs the commands of README.md and docs/GUIDE.md in order, with an installed program, and compares what each prints with what its
# page shows. Each page is run in an empty folder that gets a copy of examples/film.
# Usage: scripts/guide.sh PROGRAM [PAGE..]   (as scripts/install.sh puts it into a folder; other pages, if they are named)
#
# Blocks `sh not-run: needs TOOLS` are run too if the tools are there, with ffmpeg from version 7.1 on; a block `text` after one is
# what it prints. Other blocks that aren't run are skipped. Prints what differs, a line for each page, and in the end
# `N passed, M failed, K skipped`. The status is 1 if anything failed. Needs python3.
set -euo pipefail
[ $# -ge 1 ] || { echo "usage: scripts/guide.sh PROGRAM [PAGE..]" >&2; exit 2; }
program=$(realpath -e "$1")
shift
exec python3 "$(dirname "$(realpath "$0")")/guide.py" "$program" "$@"
