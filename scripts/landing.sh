#!/bin/sh
# landing.sh BASE: what changed since the commit BASE, by crate and with line counts: which definitions of specs/, which `requires` and
# `ensures`, which proofs. It is the skeleton of a landing's note: what a reader must believe anew stands under specs and ensures.
# Comments do not count as a change of a definition. A crate that is not named did not change.
set -eu
[ $# -eq 1 ] || {
    echo "usage: sh scripts/landing.sh BASE" >&2
    exit 2
}
cd "$(dirname "$0")/.."
base=$(git rev-parse --verify --quiet "$1^{commit}") || {
    echo "landing.sh: there is no commit $1" >&2
    exit 2
}
room=$(mktemp -d)
trap 'rm -rf "$room"' EXIT
git diff --numstat --no-renames "$base" -- crates >"$room/lines"

# counts PART: added and removed lines of a part of the crate at hand, '+A -R', or nothing
counts() {
    awk -v part="crates/$crate/$1/" 'index($3, part) == 1 { a += $1; r += $2; n++ } END { if (n) print "+" a " -" r }' "$room/lines"
}

# sides FILE: the file at BASE and now, each empty where it is not there
sides() {
    git show "$base:$1" >"$room/old" 2>/dev/null || : >"$room/old"
    if [ -f "$1" ]; then cat "$1"; fi >"$room/new"
}

for crate in $(awk -F '[\t/]' '{ print $4 }' "$room/lines" | sort -u); do
    echo "$crate"
    for part in specs src proofs; do
        line=$(counts "$part")
        [ -z "$line" ] || echo "  $part $line"
    done
    awk -v part="crates/$crate/" 'index($3, part) == 1 && $3 !~ /\/proofs\// { print $3 }' "$room/lines" | sort >"$room/files"
    while read -r file; do
        case $file in
        */specs/Lib.antt) continue ;;
        */specs/*.antt) kind=definitions ;;
        *.rt) kind=ensures ;;
        *) continue ;;
        esac
        sides "$file"
        awk -v kind=$kind -v file="${file#crates/"$crate"/}" -f scripts/landing.awk "$room/old" "$room/new"
    done <"$room/files"
    awk -v part="crates/$crate/proofs/" 'index($3, part) == 1 { printf "%s%s +%s -%s", n++ ? ", " : "  proofs: ", substr($3, length(part) + 1), $1, $2 } END { if (n) print "" }' "$room/lines"
done
