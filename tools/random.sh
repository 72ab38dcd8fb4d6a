#!/bin/sh
# Holds the proved programs against the plain codec on many random vectors: random.sh [COUNT [START]]
set -eu
root=$(cd "$(dirname "$0")/.." && pwd)
count=${1:-1000000}
start=${2:-2}
program=$root/crates/payload_vectors/out/payload_vectors
if [ ! -x "$program" ]; then
    (cd "$root/crates/payload_vectors" && rt run < stdin >&2)
fi
cargo build --quiet --offline --release -j 1 --manifest-path "$root/tools/codec/Cargo.toml"
"$root/tools/codec/target/release/vectors" "$start" "$count" | "$program"
