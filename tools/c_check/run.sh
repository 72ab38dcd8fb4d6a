#!/bin/sh
# Compiles the C program, links the proved library and runs it.
set -eu
here=$(cd "$(dirname "$0")" && pwd)
root=$(cd "$here/../.." && pwd)
folder=${PAYLOAD_LIB_DIR:-$root/target/staticlib}
if [ ! -f "$folder/libpayload.a" ]; then
    "$root/tools/library.sh"
fi
work=$(mktemp -d)
trap 'rm -rf "$work"' EXIT
gcc -std=c99 -O2 -Wall -Wextra -Wpedantic -o "$work/c_check" "$here/main.c" "$folder/libpayload.a"
"$work/c_check"
