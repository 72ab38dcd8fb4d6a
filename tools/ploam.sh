#!/bin/sh
# Holds the program ploam against the plain codec on many random cells, sound and damaged: ploam.sh [COUNT [START]]
# What it reads of each is compared, and the hex that it writes of each readable line. PROGRAM is the built
# crates/ploam; it is proved and built if none is given.
set -eu
root=$(cd "$(dirname "$0")/.." && pwd)
count=${1:-100000}
start=${2:-3}
if [ -z "${PROGRAM:-}" ]; then
    PROGRAM=$root/crates/ploam/out/ploam
    [ -x "$PROGRAM" ] || (cd "$root/crates/ploam" && rt run < stdin >&2)
fi
cargo build --quiet --offline --release -j 1 --manifest-path "$root/tools/codec/Cargo.toml"
work=$(mktemp -d)
trap 'rm -rf "$work"' EXIT
# 96 bytes are a frame for ploam, and an empty line nothing
"$root/tools/codec/target/release/vectors" "$start" "$count" |
    awk -F '\t' '$1 == "cell" && length($2) != 192 && $2 != ""' > "$work/cells"
cut -f 2 "$work/cells" | "$PROGRAM" read > "$work/read"
awk -F '\t' '{ print ($3 ~ /^cell /) ? $3 : "line " NR ": " $3 }' "$work/cells" > "$work/wanted"
head -n "$(wc -l < "$work/wanted")" "$work/read" | cmp "$work/wanted" -
awk -F '\t' '$3 ~ /^cell / { print $3 }' "$work/cells" | "$PROGRAM" write > "$work/written"
awk -F '\t' '$3 ~ /^cell / { print $4 }' "$work/cells" | cmp - "$work/written"
echo "$(wc -l < "$work/wanted") cells read, $(wc -l < "$work/written") written again: 0 differ"
