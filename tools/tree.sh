#!/bin/sh
# Holds the proved line of bench ONUs against the plain one on random scripts: tree.sh [COUNT [FIRST]]
# PROGRAM is the built crates/tree; it is proved and built if none is given.
set -eu
root=$(cd "$(dirname "$0")/.." && pwd)
count=${1:-100}
first=${2:-1}
if [ -z "${PROGRAM:-}" ]; then
    PROGRAM=$root/crates/tree/out/tree
    [ -x "$PROGRAM" ] || (cd "$root/crates/tree" && rt run < stdin >&2)
fi
cargo build --quiet --offline --release -j 1 --manifest-path "$root/tools/plants/Cargo.toml"
bin=$root/tools/plants/target/release
work=$(mktemp -d)
trap 'rm -rf "$work"' EXIT
"$bin/scripts" "$first" "$count" > "$work/scripts"
"$bin/tree" < "$work/scripts" > "$work/wanted"
"$PROGRAM" < "$work/scripts" > "$work/printed"
cmp "$work/wanted" "$work/printed"
tail -n 1 "$work/printed"
echo "$(wc -l < "$work/printed") lines the same"
