#!/bin/sh
# A million random and damaged inputs, and more: the C functions and the programs beside the plain ones: load.sh [PART]
# PART is how much of it all, in hundredths (100 if none is given). Everything is drawn, from fixed draws.
# It needs the programs built: `rt run < stdin` in crates/payload_vectors, crates/tree,
# crates/replay and crates/floor, and `rt run -- read < stdin` in crates/ploam.
set -eu
root=$(cd "$(dirname "$0")/.." && pwd)
part=${1:-100}
of() { echo $(($1 * part / 100)); }

echo "cells through the C functions, half of them damaged:"
"$root/tools/compare.sh" "$(of 600000)" 7

echo "vectors of every kind through payload_vectors:"
"$root/tools/random.sh" "$(of 400000)" 7

echo "cells through ploam, read and written again:"
"$root/tools/ploam.sh" "$(of 400000)" 9

echo "scripts of cells, reports and changes through tree:"
"$root/tools/tree.sh" "$(of 200)" 5000

echo "scripts of calls through replay:"
REPLAY=$root/crates/replay/out/replay "$root/tools/replay.sh" "$(of 400)" 5000

echo "scenarios through floor:"
PROGRAM=$root/crates/floor/out/floor "$root/tools/floor.sh" "$(of 40)" 5000
