#!/bin/sh
# Draws docs/pictures/slots.svg and life.svg: what the program floor answers to svg and life in tools/pictures.txt.
set -eu
root=$(cd "$(dirname "$0")/.." && pwd)
text=$(mktemp)
trap 'rm -f "$text"' EXIT
(cd "$root/crates/floor" && rt run < "$root/tools/pictures.txt") > "$text"
mkdir -p "$root/docs/pictures"
cut_out() {
    awk -v wanted="$1" '/^<svg/ { n++ } n == wanted && /^</ { print } n == wanted && /^<\/svg>/ { exit }' "$text"
}
cut_out 1 > "$root/docs/pictures/slots.svg"
cut_out 2 > "$root/docs/pictures/life.svg"
