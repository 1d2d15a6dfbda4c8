#!/bin/sh
# Makes docs/generated/FIELDS.md, the fields by their numbers, from the constants of crates/vx_fields. A star marks each field that has one in
# the syntax tables (crates/*/src/tables.rt), from which the kept fields are defined.
# Usage: scripts/list-fields.sh [--check]    (--check writes nothing; the status is 1 if the page isn't what would be written)
set -eu
cd "$(dirname "$0")/.."
page=docs/generated/FIELDS.md

# The fields that rows name for gaps.
gaps() { sed -n 's/.*\(trailing\|one_and_zeros\) \([a-z_]*\);.*/\2/p' crates/vx_*/src/tables.rt; }
# The fields of rows without a star.
kept() {
    cat crates/vx_*/src/tables.rt | tr '{}' '\n\n' | grep -oE '^ *[a-z][a-z0-9_]*(;|:| in | below )' | grep -oE '^ *[a-z][a-z0-9_]*' | tr -d ' ' | sort -u
}

# Prints the page.
made() {
    cat <<'END'
<!-- Made by scripts/list-fields.sh from crates/vx_fields: don't edit it. -->

# Fields by their numbers

For users with a refusal that names a field, such as `field 171`. This page says which syntax element of H.266 that is; `goosequince --explain 171` prints the same.

Names are those of H.266. A field that two structures share has its name without their prefix. A row of several fields, such as the 71 bits of constraints or a body of bytes, has a name of ours. Each heading names the structure.

**Stars.** A field without a star is equal in two equal decoding inputs (`Input` in `crates/vx_pic/specs/Inputs.antt`). A field with a star isn't compared, neither between a source and the output nor among the sources of a merge. There are three reasons:

- Decoding slices doesn't depend on it.
- What it says is compared in another way. Ids of adaptation parameter sets are compared by the bodies in force, and QPs by the QP of each slice. Sizes, tiles and slices are compared by the place of each slice in its subpicture.
- The rules on extraction require it, and a merge writes it. These are fields 124 and 125: whether a subpicture is treated as a picture, and whether filters cross its border.

Exceptions: `merge` also compares the profile, the tier, ptl_frame_only_constraint_flag and ptl_multilayer_enabled_flag among its sources (M2).

**Gaps.** Gaps have numbers too. Trailing bits and the alignment after a slice header are fields 231, 470, 656 and 735. A fault in zeros up to a byte boundary is reported at the field that follows them.
END
    for structure in vps ptl dpb timing sps rpl weights pps aps ph alf sh; do
        awk -v kept="$(kept | tr '\n' ' ')" -v gaps="$(gaps | tr '\n' ' ')" '
            BEGIN { split(kept, names, " "); for (i in names) mark[names[i]] = " "; split(gaps, names, " "); for (i in names) mark[names[i]] = "gap" }
            /^\/\/! / { line = substr($0, 5); head = head == "" ? line : head " " line; next }
            /^\/\/\/ / { doc = substr($0, 5); next }
            /^pub const [a-z]/ {
                if (!begun++) {
                    sub(/^Fields of /, "", head); split(head, part, ", clause")
                    print "\n## " toupper(substr(part[1], 1, 1)) substr(part[1], 2) "\n\nFields of " head "\n\n| number | field | star | |\n|---|---|---|---|"
                }
                sub(/:$/, "", $3); sub(/;$/, "", $6)
                star = $3 in mark ? mark[$3] : "*"
                print "| " $6 " | `" $3 "` | " (star == " " ? "" : star " ") "| " doc " |"
            }
        ' "crates/vx_fields/src/$structure.rt"
    done
}

if [ "${1:-}" = --check ]; then
    made | cmp - "$page"
else
    mkdir -p "$(dirname "$page")"
    made > "$page"
fi
