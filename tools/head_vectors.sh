#!/bin/sh
# Writes what the program replay reads in the gate, a tour and random scripts, and what another implementation answers.
# HEAD is that implementation's program, built from tools/head if none is given.
set -eu
root=$(cd "$(dirname "$0")/.." && pwd)
if [ -z "${HEAD:-}" ]; then
    cargo build --quiet --offline --release -j 1 --manifest-path "$root/tools/head/Cargo.toml"
    HEAD=$root/tools/head/target/release/head
fi
stored=$root/crates/replay
python3 "$root/tools/replay_demo.py" > "$stored/stdin"
"$HEAD" < "$stored/stdin" > "$stored/stdout"
work=$(mktemp)
trap 'rm -f "$work"' EXIT
for draw in 72 89 38 134 31 105 148 61 45 293; do
    "$HEAD" random "$draw" > "$work"
    echo "## new head" >> "$stored/stdin"
    cat "$work" >> "$stored/stdin"
    "$HEAD" < "$work" >> "$stored/stdout"
done
