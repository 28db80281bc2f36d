#!/bin/sh
# demo.sh [NAME=NUMBER ..]: the main job. First the worked example of ES 201 980, annex C: its description cuts a frame of 1,200 bytes.
# Then the night with two two-o'clocks; arguments are what is other than in the usual night (a wrong one makes it list the names). At the
# end stand the last lines of the same night with packets lost on the way, unless an argument says itself how many are.
# The two programs and what they stand on are proved first, where they are not yet; meanwhile it shows how far that is.
set -eu
ROOT=$(cd "$(dirname "$0")/.." && pwd -P)
cd "$ROOT"
. "$ROOT/scripts/kit.sh"
. "$ROOT/scripts/progress.sh"
# the numbers of the night; a wrong wish ends the run before anything is proved
numbers=$(WISHES="$*" awk -f scripts/night.awk crates/night/args) || {
    echo "$numbers" >&2
    exit 2
}
log=$ROOT/target/demo.log
mkdir -p target
room=$(mktemp -d)
crates=$(plan layout night)
total=$(printf '%s\n' "$crates" | wc -l)
began=$(date +%s)

# show: which crate rt is at. On a terminal one line, which the next takes the place of; elsewhere a line for each crate. What is proved already
# is not named.
show() {
    now=$(sed -n 's/^rt: chose --jobs [0-9]* for //p' "$log" | tail -n 1)
    [ -n "$now" ] && [ "$now" != "$shown" ] || [ -t 1 ] || return 0
    shown=$now
    [ -n "$now" ] || return 0
    said="proving $(printf '%s\n' "$crates" | grep -n -x "$now" | cut -d: -f1) of $total, $now, $(minutes $(($(date +%s) - began)))"
    if [ -t 1 ]; then printf '\r%s\033[K' "$said"; else echo "$said"; fi
}

# prove NAME ARGS..: proves the program, and runs it with these arguments into a file of its name. Its standard input is this call's.
prove() {
    name=$1
    shift
    (cd "crates/$name" && rt run -- "$@") >"$room/$name" 2>>"$log" && return
    [ ! -t 1 ] || printf '\r\033[K'
    echo "The program $name is not proved; $log says why." >&2
    exit 1
}

: >"$log"
(
    shown=
    while [ ! -e "$room/ended" ]; do
        show
        sleep 1
    done
    show
) &
display=$!
trap 'exit 130' INT TERM
trap 'kill "$display" 2>/dev/null || :; rm -rf "$room"' EXIT
# capacity 04 B0, then the sdci value: two protection levels, and the part A and part B lengths of three streams
printf '\004\260\001\000\004\121\003\260\000\001\060\000' >"$room/frame"
prove layout <"$room/frame"
# shellcheck disable=SC2086
prove night $numbers </dev/null
: >"$room/ended"
wait "$display"
[ ! -t 1 ] || printf '\r\033[K'
echo "The frame of ES 201 980, annex C:"
echo
cat "$room/layout"
echo
cat "$room/night"
case " $*" in
*' '[Ll][Oo][Ss][Ee]=*) ;;
*)
    numbers=$(WISHES="$* lose=50" awk -f scripts/night.awk crates/night/args)
    # a night that cannot be run has no such lines
    # shellcheck disable=SC2086
    rows=$(run_program night $numbers | sed -n '/^packets lost/,$p')
    [ -z "$rows" ] || printf '\nThe same night, each 50th packet lost on the way:\n%s\n' "$rows"
    ;;
esac
