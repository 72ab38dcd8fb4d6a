#!/bin/sh
# A long run of `floor`: 64 ONUs under losses, drift, power cycles and cuts: soak.sh [FRAMES [DRAW]]
# Prints the summary, and every minute how much memory the program holds. Ten million frames take 5 to 10 minutes.
set -eu
root=$(cd "$(dirname "$0")/.." && pwd)
work=$(mktemp -d)
trap 'rm -rf "$work"' EXIT
"$root/tools/soak.py" "${1:-10000000}" "${2:-1}" > "$work/scenario"
"$root/crates/floor/out/floor" < "$work/scenario" > "$work/printed" &
floor=$!
while kill -0 "$floor" 2> /dev/null; do
    grep VmRSS "/proc/$floor/status" || true
    sleep 60
done
wait "$floor"
tail -n 3 "$work/printed"
