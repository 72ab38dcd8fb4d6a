#!/usr/bin/env bash
# Lists the places in crates/*/src that the first table of docs/DESIGN-PASS.md counts, by its points.
# `tools/places.sh` prints the counts, `tools/places.sh N` the places of point N; TREE=FOLDER counts in another clone.
set -u
cd "${TREE:-$(dirname "$0")/..}" || exit 2
src() { grep -rnE "$@" crates/*/src --include='*.rt'; }

# 1. Enums of the repository's own, and functions that give an enum's case as a number or take a case as one.
enums() { src '^\s*(pub(\([a-z]+\))? )?enum '; }
numbers() { src 'fn (number|group|byte|bits)\((self|&self)\) -> u|fn within\(|[^_]within\([0-9]'; }
# 2. Functions of one name, or types of one shape, in more than one place: names of free functions and methods that
# stand three times or more, and each struct around one number or one array.
same_names() { src -o 'fn [a-z_0-9]+' | sed 's/.*fn //' | sort | uniq -c | awk '$1 >= 3 { print $2 " " $1 }'; }
wrappers() { src -A3 '^pub struct' | grep -E '(value|bits|codes|bytes): (u8|u32|u64|\[u8; N\]),'; }
constants() { src '14918173765664768'; }
# 3. Loops over a range of numbers, and numbers stepped by hand beside a loop.
ranges() { src 'for [a-z_]+ in [^[]*\.\.'; }
stepped() { src '\.saturating_add\((1|27|new\.len)'; }
# 4. Equality by a part, conversions under names of their own, a `match` that only hands an error on.
equality() { src '\.(value|byte|bits|number)\(\) [!=]= [a-z]'; }
conversions() { src 'fn (from_[a-z]+|byte|source_byte|named|of|key|light|code_in)\(|fn name\(message|fn number\(self|fn group\(self'; }
handed_on() { src 'Err\(fault\) => Err\((fault|\(place, fault\))\)|Err\(_\) => (Err|None)|Ok\((whole|contents)\) => Ok'; }
# 5. Clauses that stand in three functions or more once names are set aside, and parameters that travel together.
clauses() {
    src '(requires|ensures)( [a-z_]+)? \{' | sed -E 's/.*(requires|ensures)( [a-z_]+)? \{ *//; s/ \}$//' \
        | sed -E 's/^OnOk result \(string_bytes out.new ≡ .*/OnOk result (string_bytes out.new ≡ ..)/; s/kind_of m ≡ .*/kind_of m ≡ ../; s/^.* ≤ room_in bursts.old/.. ≤ room_in bursts.old/; s/(length [a-z.]+) ≡ 48.*/length .. ≡ 48/; s/(result ≡ [a-z]+_of) .*/\1/' \
        | sort | uniq -c | awk '$1 >= 3' | sort -rn
}
together() {
    tr '\n' ' ' < <(cat crates/*/src/*.rt crates/*/src/*/*.rt crates/*/src/*/*/*.rt 2>/dev/null) \
        | grep -oE 'fn [a-z_0-9]+(<[^(]*>)?\([^)]*\)' \
        | grep -cE "$1"
}
# 6. Arrays with a length or a second array beside them, and lists searched by hand.
buffers() { src 'filled: usize|self\.filled|messages: \[u64|\[0; PORTS\]|before\[|for kind in &KINDS'; }
# 7. Function pointers, and a `match` whose arms run one step each for a word.
switches() { src 'fn\([a-z0-9 ]*\) ->|^ *"[a-z]+" => (\{|hear|Ok\(Change)|HostEvent::[A-Za-z()]+ => onu'; }
# 8. Lines of proofs, and of definitions and lemmas in specs.
lines() { find crates/*/"$1" -name '*.antt' -print0 | xargs -0 cat | wc -l; }

count() { printf '%s: %s\n' "$1" "$("$2" | wc -l)"; }
case "${1:-}" in
    1) enums; numbers ;;
    2) same_names; wrappers; constants ;;
    3) ranges; stepped ;;
    4) equality; conversions; handed_on ;;
    5) clauses ;;
    6) buffers ;;
    7) switches ;;
    *)
        count '1 enums' enums
        count '1 numbers for cases' numbers
        count '2 names three times or more' same_names
        count '2 structs around one value' wrappers
        count '2 the last first slot' constants
        count '3 loops over a range' ranges
        count '3 numbers stepped by hand' stepped
        count '4 equality by a part' equality
        count '4 conversions' conversions
        count '4 results handed on by hand' handed_on
        count '5 clauses in three functions or more' clauses
        printf '5 payload, first and bursts together: %s\n' "$(together 'payload: &\[u8\],? *first: u64,? *bursts')"
        printf '5 cell, first and bursts together: %s\n' "$(together 'cell: &Cell,? *first: u64,? *bursts')"
        printf '5 onu, free and bursts together: %s\n' "$(together 'onu: &Onu, *free: Octets<12>')"
        printf '5 words and a key together: %s\n' "$(together 'words: &mut SplitWhitespace')"
        printf '5 a text to append to: %s\n' "$(together 'out: &mut String')"
        count '6 buffers, parallel arrays, searches' buffers
        count '7 switches and tables of functions' switches
        printf '8 lines of proofs: %s, of specs: %s\n' "$(lines proofs)" "$(lines specs)"
        ;;
esac
