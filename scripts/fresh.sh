#!/bin/sh
# fresh.sh COUNT SEED: at least COUNT cases a call are made from the seed, answered by the programs of scripts/programs.txt and compared
# with the second program. A difference prints the case. The last line is 'N passed, M failed'.
set -u
ROOT=$(cd "$(dirname "$0")/.." && pwd -P)
. "$ROOT/scripts/kit.sh"
room=$(mktemp -d) || exit 2
trap 'rm -rf "$room"' EXIT
passed=0 failed=0

# compare ROOM NAME FIRST LAST: the report, whose last line has the counts; ROOM is for its files
compare() {
    mkdir -p "$1"
    if [ ! -x "$(program "$2")" ]; then
        echo "fresh: crates/$2/out/$2 is not there: rt ci, or rt run, has not proved it"
    elif ! "$REFERENCE" generate "$seed" "$count" "$3" "$4" >"$1/cases"; then
        echo "fresh: the cases $3 to $4 of $2 could not be made"
    elif ! run_program "$2" <"$1/cases" >"$1/answers"; then
        echo "fresh: $2 did not end well"
    else
        "$REFERENCE" compare "$1/cases" "$1/answers"
        return
    fi
    echo "0 passed, 1 failed"
}

count=$1 seed=$2
if build_reference; then
    # the lines side by side, since an answering program runs on one core; their reports in order
    lines=0
    while read -r name first last; do
        case $name in '' | '#'*) continue ;; esac
        lines=$((lines + 1))
        compare "$room/$lines" "$name" "$first" "$last" >"$room/report$lines" 2>&1 &
        echo "$name, calls $first to $last" >"$room/title$lines"
    done <"$ROOT/scripts/programs.txt"
    wait
    n=0
    while [ "$n" -lt "$lines" ]; do
        n=$((n + 1))
        echo "-- $(cat "$room/title$n")"
        sed '$d' "$room/report$n"
        line=$(tail -n 1 "$room/report$n")
        passed=$((passed + ${line%% *}))
        line=${line#* passed, }
        failed=$((failed + ${line%% *}))
    done
else
    failed=1
fi
echo "$passed passed, $failed failed"
[ "$failed" -eq 0 ]
