#!/bin/sh
# Shows that a docket cannot be misused: programs that let one go, forget one, settle one twice or make one up
# are refused by the checker, whose words are printed; one that settles it is accepted. Works on a copy, and ends with 1 if it is otherwise.
set -eu
root=$(cd "$(dirname "$0")/.." && pwd)
below="field message cell payload upstream report rules head"
work=$(mktemp -d)
trap 'rm -rf "$work"' EXIT
mkdir "$work/crates"
for name in $below; do
    mkdir "$work/crates/$name"
    for part in src specs proofs; do
        [ ! -d "$root/crates/$name/$part" ] || cp -r "$root/crates/$name/$part" "$work/crates/$name"
    done
done
grep -E "^($(echo "$below" | tr ' ' '|')):" "$root/crates.txt" > "$work/crates.txt"
failed=0

# Checks a crate of that name with the function on standard input.
check() {
    mkdir -p "$work/crates/$1/src"
    {
        echo "#![tactic(auto)]"
        echo
        cat
    } > "$work/crates/$1/src/lib.rt"
    echo "$1: $below" >> "$work/crates.txt"
    echo "$1:"
    sed 's/^/    | /' "$work/crates/$1/src/lib.rt"
    status=0
    (cd "$work/crates/$1" && rt check) > "$work/said" 2>&1 || status=$?
    sed -i "/^$1:/d" "$work/crates.txt"
    return "$status"
}

# The checker is to accept it.
accepted() {
    if check "$1"; then
        echo "    accepted"
    else
        echo "    NOT ACCEPTED:"
        tail -5 "$work/said"
        failed=1
    fi
}

# The checker is to refuse it by this error.
refused() {
    if check "$1"; then
        echo "    NOT REFUSED"
        failed=1
    elif grep "src/lib.rt:.*error\[$2\]" "$work/said" > "$work/words"; then
        sed 's/^/    /' "$work/words"
    else
        echo "    refused for another reason than $2:"
        tail -5 "$work/said"
        failed=1
    fi
}

accepted settles <<'END'
use head::docket::{Docket, Refused};
use head::head::Head;

pub fn settles(head: &mut Head, docket: Docket, report: &[u8]) -> Result<(), Refused> {
    head.settle(docket, report)
}
END

refused lets_go linear-value-let-go <<'END'
use head::head::Head;
use head::refusal::Refusal;

pub fn lets_go(head: &mut Head, buffer: &mut [u8]) -> Result<u64, Refusal> {
    let docket = head.send(buffer)?;
    Ok(docket.frame())
}
END

refused settles_twice borrow-e0382 <<'END'
use head::docket::{Docket, Refused};
use head::head::Head;

pub fn settles_twice(head: &mut Head, docket: Docket, report: &[u8]) -> Result<(), Refused> {
    head.settle(docket, report)?;
    head.settle(docket, report)
}
END

refused forgets unsatisfied-bound <<'END'
use head::docket::Docket;
use std::mem;

pub fn forgets(docket: Docket) {
    mem::forget(docket);
}
END

refused makes_up private-field <<'END'
use head::docket::Docket;

pub fn makes_up(frame: u64) -> Docket {
    Docket { frame }
}
END

[ "$failed" -eq 0 ]
