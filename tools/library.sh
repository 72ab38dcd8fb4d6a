#!/bin/sh
# Proves and builds the C library, target/staticlib/libpayload.a.
set -eu
root=$(cd "$(dirname "$0")/.." && pwd)
(cd "$root/crates/payload_c" && rt lib >&2)
mkdir -p "$root/target/staticlib"
cp "$root/crates/payload_c/out/libpayload_c.a" "$root/target/staticlib/libpayload.a"
