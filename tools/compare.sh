#!/bin/sh
# Holds the proved library against the plain codec: compare.sh [COUNT [START]]
set -eu
root=$(cd "$(dirname "$0")/.." && pwd)
PAYLOAD_LIB_DIR=${PAYLOAD_LIB_DIR:-$root/target/staticlib}
export PAYLOAD_LIB_DIR
if [ ! -f "$PAYLOAD_LIB_DIR/libpayload.a" ]; then
    "$root/tools/library.sh"
fi
cargo build --quiet --offline --release -j 1 --manifest-path "$root/tools/compare/Cargo.toml"
exec "$root/tools/compare/target/release/compare" "$@"
