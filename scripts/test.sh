#!/bin/sh
# test.sh COUNT [SEED]: the test command. Ends in exactly one last line 'N passed, M failed'; status 0 only where M is 0.
# N counts each public call held against its promise, rt's passes, the reading of the edits and of what rt says of them, the wishes and the losses of
# a night, the tests of the second program, each case of the fresh set, and each comparison of the C host. Before that line stands where the time
# went; no limit in it fails the test.
set -u
ROOT=$(cd "$(dirname "$0")/.." && pwd -P)
cd "$ROOT" || exit 2
count=${1:-3000}
seed=${2:-}
passed=0 failed=0
room=$(mktemp -d) || exit 2
trap 'rm -rf "$room"' EXIT
: >"$room/times"

# a tool that is missing is a failure with its own sentence
finish() {
    echo "$passed passed, $failed failed"
    [ "$failed" -eq 0 ] && [ "$passed" -gt 0 ]
    exit $?
}
missing=$( (. "$ROOT/scripts/kit.sh" && need cargo "to build the second program in reference/ (Rust)") 2>&1) || {
    echo "$missing"
    failed=1
    finish
}
. "$ROOT/scripts/kit.sh"
. "$ROOT/scripts/progress.sh"

# add FILE STATUS: adds the counts of a report whose last line is 'N passed, M failed'; a report without one, or of a part that ended
# otherwise than its counts say, is a failure
add() {
    line=$(tail -n 1 "$1")
    n=${line%% passed, *}
    m=${line#* passed, }
    m=${m% failed}
    case $line in
    *[!0-9]*' passed, '* | ' passed, '*) n='' ;;
    *' passed, '*' failed') ;;
    *) n='' ;;
    esac
    case $n$m in '' | *[!0-9]*) n='' ;; esac
    if [ -z "$n" ]; then
        echo "test: a part ended without its counts; its last line is: $line"
        failed=$((failed + 1))
        return
    fi
    passed=$((passed + n)) failed=$((failed + m))
    [ "$2" -eq 0 ] || [ "$m" -gt 0 ] || {
        echo "test: a part ended with status $2"
        failed=$((failed + 1))
    }
}

# whole TITLE COMMAND..: one check that passes or fails as a whole
whole() {
    echo "== $1"
    shift
    if "$@"; then
        passed=$((passed + 1))
        echo "$*: passed"
    else
        failed=$((failed + 1))
        echo "$*: FAILED"
    fi
}

# only the last line of all may look like the verdict; line by line, so that none is held back where standard output is no terminal
quiet() {
    while IFS= read -r said || [ -n "$said" ]; do
        case $said in
        *[!0-9]*' passed, '* | ' passed, '* | *' passed, '*[!0-9]*' failed' | *' passed,  failed') ;;
        *' passed, '*' failed') said="($said)" ;;
        esac
        printf '%s\n' "$said"
    done
}

# counted TITLE COMMAND..: a part whose last line has its counts
counted() {
    title=$1
    shift
    echo "== $title"
    since=$(date +%s)
    {
        "$@" 2>&1
        echo $? >"$room/status"
    } | tee "$room/report" | quiet
    add "$room/report" "$(cat "$room/status")"
    echo "$(($(date +%s) - since)) $title" >>"$room/times"
}

[ -n "$seed" ] || seed=$(od -An -N4 -tu4 /dev/urandom | tr -d ' ')
counted "promises, held against docs/PROMISES.md" sh scripts/promises.sh
counted "proofs, must-fail edits, programs" sh scripts/proofs.sh "$room"
whole "what the edits show" sh scripts/edits.sh "$room/said"
whole "what a night may be wished" sh scripts/wishes.sh
whole "a night with packets lost on the way" sh scripts/losses.sh
counted "the second program's own tests" sh scripts/unit.sh
echo "The seed of the cases is $seed (repeat with: make test SEED=$seed COUNT=$count)."
counted "fresh cases, compared with the second program" sh scripts/fresh.sh "$count" "$seed"
counted "the C host" sh scripts/host.sh "$seed"

echo "== where the time went"
while read -r seconds what; do echo "$(minutes "$seconds"): $what"; done <"$room/times"
finish
