#!/bin/sh
# wrong.sh [NAME..]: tries the edits of crates/NAME/must-fail/ and crates/NAME/wrong/, of every crate or of those named, over what is already
# checked of the crate, which takes seconds each. It is no verdict: that is rt ci's, from nothing. rt knows must-fail/ alone, so a copy of the
# crates, outside the checkout, has the edits of both there. The last line is 'N passed, M failed'; status 0 only where M is 0.
set -u
ROOT=$(cd "$(dirname "$0")/.." && pwd -P)
cd "$ROOT" || exit 2
. scripts/kit.sh
. scripts/refused.sh
. scripts/progress.sh
mkdir -p target
room=$(mktemp -d) || exit 2
trap 'rm -rf "$room"' EXIT
trap 'exit 130' INT TERM
passed=0 failed=0

# edits_of NAME: its edits, one to a line
edits_of() {
    for edit in "crates/$1/must-fail"/*.edit "crates/$1/wrong"/*.edit; do
        [ -f "$edit" ] && echo "$edit"
    done
}

# copied EDIT: how the edit is called in the copy
copied() {
    case $1 in
    */wrong/*) echo "wrong-$(basename "$1")" ;;
    *) basename "$1" ;;
    esac
}

fail() { # EDIT WHY
    echo "$1: $2"
    failed=$((failed + 1))
}

# try_crate NAME: the crate as it is must be proved, or else a refusal says nothing
try_crate() {
    mkdir "$room/crates/$1/must-fail"
    for edit in $(edits_of "$1"); do cp "$edit" "$room/crates/$1/must-fail/$(copied "$edit")"; done
    if ! (cd "crates/$1" && rt check) >"$room/log" 2>&1; then
        cp "$room/log" target/wrong.log
        why=$(grep -m 1 'error' "$room/log" | cut -c1-200)
        for edit in $(edits_of "$1"); do fail "$edit" "its crate is not proved as it is: ${why:-target/wrong.log says why}"; done
        return
    fi
    (cd "$room" && rt must-fail "$1") >"$room/log" 2>&1
    for edit in $(edits_of "$1"); do
        said=$(said_of "$room/log" "$1" "$(copied "$edit")")
        if why=$(shows_nothing "$said"); then
            fail "$edit" "$why"
        else
            passed=$((passed + 1))
            echo "$edit: refused: ${said#refused, as it must be: }"
        fi
    done
    cp "$room/log" target/wrong.log
}

cp crates.txt "$room/"
[ ! -f HANDLES ] || cp HANDLES "$room/"
for crate in crates/*; do
    mkdir -p "$room/$crate"
    for part in src specs proofs; do
        [ ! -d "$crate/$part" ] || cp -R "$crate/$part" "$room/$crate/"
    done
done
# shellcheck disable=SC2046
[ $# -gt 0 ] || set -- $(plan)
for name; do
    [ -z "$(edits_of "$name")" ] || try_crate "$name"
done
[ $((passed + failed)) -gt 0 ] || fail "$*" "no crate of this name has edits"
echo "This is no verdict: the edits were tried over what was already checked. The gate is make test."
echo "$passed passed, $failed failed"
[ "$failed" -eq 0 ]
