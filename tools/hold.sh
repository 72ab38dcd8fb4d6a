# Read by floor.sh and replay.sh: holds a program against the plain one, input by input.
# They set count, program (the one that is held), plain (the plain one, which can `compare`) and keep (a folder).
work=$(mktemp -d)
trap 'rm -rf "$work"' EXIT
: > "$work/same"
differ=0

# hold WHAT NAME INPUT PRINTED: gives $work/input to the program and compares what it prints. The lines of the
# comparison that begin with same or equal are gathered in $work/same. Where the two part, that is told of WHAT, and
# both files are kept as NAME.INPUT and NAME.PRINTED.
hold() {
    status=0
    "$program" < "$work/input" > "$work/printed" 2> "$work/errors" || status=$?
    parted=0
    "$plain" compare "$work/input" "$work/printed" > "$work/result" || parted=$?
    grep -aE '^(same|equal)' "$work/result" >> "$work/same" || true
    if [ "$parted" -ne 0 ] || [ "$status" -ne 0 ]; then
        differ=$((differ + 1))
        mkdir -p "$keep"
        cp "$work/input" "$keep/$2.$3"
        cp "$work/printed" "$keep/$2.$4"
        echo "$1 (the program ended with $status, kept as $keep/$2.$3):"
        grep -avE '^(same|equal)' "$work/result" || true
        head -c 400 "$work/errors"
    fi
}

# hold_end WHAT: the last line, and whether all are the same.
hold_end() {
    echo "$count $1, $differ differ"
    [ "$differ" -eq 0 ]
}
