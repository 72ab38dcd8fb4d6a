#!/bin/sh
# Writes the stored test vectors and the sample capture anew.
set -eu
root=$(cd "$(dirname "$0")/.." && pwd)
cargo build --quiet --offline --release -j 1 --manifest-path "$root/tools/codec/Cargo.toml"
bin=$root/tools/codec/target/release
"$bin/vectors" 1 3000 > "$root/crates/payload_vectors/stdin"
"$bin/capture" > "$root/crates/ploam/stdin"
