#!/bin/sh
# edits.sh [LOG]: names the must-fail edits that show nothing, by what rt ci said of each in LOG (target/test.log, where the last make test left
# it, if not named), and the edits of must-fail/ and wrong/ that no longer fit the sources; those of wrong/ only make wrong tries. Status 1 if
# there is any.
set -u
cd "$(dirname "$0")/.." || exit 2
. scripts/refused.sh
log=${1:-target/test.log}
room=$(mktemp -d) || exit 2
trap 'rm -rf "$room"' EXIT
status=0

# fault EDIT WHY
fault() {
    echo "$1: $2"
    status=1
}

[ -f "$log" ] || {
    echo "edits: there is no $log: rt ci has not run"
    exit 1
}
for edit in crates/*/must-fail/*.edit; do
    [ -f "$edit" ] || continue
    crate=${edit#crates/}
    crate=${crate%%/*}
    if why=$(shows_nothing "$(said_of "$log" "$crate" "$(basename "$edit")")"); then fault "$edit" "$why"; fi
done

at=
for edit in crates/*/must-fail/*.edit crates/*/wrong/*.edit; do
    [ -f "$edit" ] || continue
    crate=${edit%/*/*}
    [ "$crate" = "$at" ] || {
        rm -rf "$room/whole" && mkdir "$room/whole"
        for part in src specs proofs; do
            [ ! -d "$crate/$part" ] || cp -R "$crate/$part" "$room/whole/"
        done
        at=$crate
    }
    rm -rf "$room/crate" && cp -R "$room/whole" "$room/crate"
    why=$(apply_edit "$room/crate" "$edit") || fault "$edit" "does not fit: $why"
done
exit $status
