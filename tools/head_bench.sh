#!/bin/sh
# Measures the proved head against the plain one: head_bench.sh [ROUNDS [FRAMES]]
# PROGRAM is the built crates/head_bench; it is proved and built if none is given.
set -eu
root=$(cd "$(dirname "$0")/.." && pwd)
if [ -z "${PROGRAM:-}" ]; then
    (cd "$root/crates/head_bench" && rt run >&2)
    PROGRAM=$root/crates/head_bench/out/head_bench
fi
cargo build --quiet --offline --release -j 1 --manifest-path "$root/tools/head_bench/Cargo.toml"
exec "$root/tools/head_bench/target/release/head_bench" "$PROGRAM" "$@"
