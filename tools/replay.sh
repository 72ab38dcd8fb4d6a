#!/bin/sh
# Holds another head against the plain one on random scripts: replay.sh N [DRAW]
# REPLAY is the program that reads a script and prints the answers. Every eighth
# script is the one of a whole line. Scripts that differ are kept in KEEP.
set -eu
root=$(cd "$(dirname "$0")/.." && pwd)
count=${1:?usage: REPLAY=PROGRAM replay.sh N [DRAW]}
draw=${2:-1}
program=${REPLAY:?the program to compare}
keep=${KEEP:-$root/target/replay}
cargo build --quiet --offline --release -j 1 --manifest-path "$root/tools/head/Cargo.toml"
plain=$root/tools/head/target/release/head
"$plain" check > /dev/null
. "$root/tools/hold.sh"
i=0
while [ "$i" -lt "$count" ]; do
    own=$((draw + i))
    if [ $((i % 8)) -eq 7 ]; then kind=line; else kind=random; fi
    if ! "$plain" "$kind" "$own" > "$work/input" 2> "$work/said"; then
        cat "$work/said" >&2
        exit 2
    fi
    hold "$kind $own" "$kind-$own" script answers
    i=$((i + 1))
done
awk -F '\t' '{ total[$3] += $2; all += $2 }
    END { for (kind in total) printf "%10d %s\n", total[kind], kind; printf "%10d answers equal\n", all }' \
    "$work/same" | sort -rn
hold_end scripts
