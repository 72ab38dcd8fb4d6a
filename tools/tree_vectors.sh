#!/bin/sh
# Writes what the program tree reads in the gate, a tour and random scripts, and what another implementation prints for it.
set -eu
root=$(cd "$(dirname "$0")/.." && pwd)
cargo build --quiet --offline --release -j 1 --manifest-path "$root/tools/plants/Cargo.toml"
bin=$root/tools/plants/target/release
stored=$root/crates/tree
cp "$root/tools/plants/demo.txt" "$stored/stdin"
"$bin/scripts" 1 8 >> "$stored/stdin"
"$bin/tree" < "$stored/stdin" > "$stored/stdout"
