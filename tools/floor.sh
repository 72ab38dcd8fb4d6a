#!/bin/sh
# Holds the proved floor against the plain one on random scenarios: floor.sh [COUNT [FIRST]]
# COUNT files are drawn, from draw FIRST on. PROGRAM is the built crates/floor; it is proved and built if none is
# given. Files on which the two differ are kept in KEEP, with what the proved one printed.
set -eu
root=$(cd "$(dirname "$0")/.." && pwd)
count=${1:-100}
first=${2:-1}
keep=${KEEP:-$root/target/floor}
if [ -z "${PROGRAM:-}" ]; then
    (cd "$root/crates/floor" && rt run < stdin >&2)
    PROGRAM=$root/crates/floor/out/floor
fi
cargo build --quiet --offline --release -j 1 --manifest-path "$root/tools/floor/Cargo.toml"
program=$PROGRAM
plain=$root/tools/floor/target/release/floor
. "$root/tools/hold.sh"
i=0
while [ "$i" -lt "$count" ]; do
    own=$((first + i))
    "$plain" draw "$own" > "$work/input"
    hold "draw $own" "$own" scenarios printed
    i=$((i + 1))
done
awk -F '\t' '{ scenarios += $2; lines += $3; frames += $4; bursts += $5 }
    END { printf "%d scenarios, %d lines the same, %d frames, %d bursts\n", scenarios, lines, frames, bursts }' \
    "$work/same"
hold_end files
