#!/bin/sh
# unit.sh: the unit tests of the second program. The last line is 'N passed, M failed'; status 0 only where M is 0.
set -u
ROOT=$(cd "$(dirname "$0")/.." && pwd -P)
. "$ROOT/scripts/kit.sh"
need cargo "to test the second program in reference/ (Rust)"
room=$(mktemp -d) || exit 2
trap 'rm -rf "$room"' EXIT
(cd "$ROOT/reference" && cargo test --release --offline --quiet) >"$room/log" 2>&1
status=$?
# cargo's line for each set of tests: test result: ok. 156 passed; 0 failed; ..
sum() { sed -n "s/^test result: .* \([0-9][0-9]*\) $1;.*/\1/p" "$room/log" | awk '{ n += $1 } END { print n + 0 }'; }
passed=$(sum passed) failed=$(sum failed)
if [ "$status" -ne 0 ] || [ "$passed" -eq 0 ]; then
    tail -n 40 "$room/log"
    [ "$failed" -gt 0 ] || failed=1
fi
echo "$passed passed, $failed failed"
[ "$failed" -eq 0 ]
