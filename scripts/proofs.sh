#!/bin/sh
# proofs.sh DIR: rt ci, of the whole repository as it stands, with how far it is. Shown are the lines about crates, edits and programs, and all
# that is no plain success; target/test.log has the whole. An edit that is bad, which fails nothing in rt ci, is a failure here. DIR/times gets a
# line 'SECONDS WHAT' for each stage. The last line is 'N passed, M failed'.
set -u
ROOT=$(cd "$(dirname "$0")/.." && pwd -P)
cd "$ROOT" || exit 2
. scripts/kit.sh
. scripts/progress.sh
room=$1
began=$(date +%s)
crates=$(plan | wc -l)
edits=$(find crates -path '*/must-fail/*.edit' | wc -l)

so_far() { minutes $(($(date +%s) - began)); }

# turn NAME: from here on rt is at NAME; what went before is noted
turn() {
    [ "$stage" != "$1" ] || return 0
    echo "$(($(date +%s) - since)) $stage" >>"$room/times"
    since=$(date +%s) stage=$1
}

# follow: reads what rt says, as it says it. What it says of one crate comes at once: '== NAME', the crate's log, and the verdict. The log of a
# crate that is proved is left out, but for rt's own words and warnings.
follow() {
    proved=0 tried=0 since=$began stage='proofs and must-fail edits' crate=
    while IFS= read -r line; do
        case $line in
        '== '*)
            crate=${line#== }
            : >"$room/log"
            continue
            ;;
        "rt: ${crate:--} proved" | "rt: $crate are proved") [ -z "$crate" ] || grep -e '^rt: ' -e 'warning' "$room/log" ;;
        "rt: ${crate:--} NOT PROVED" | "rt: $crate are NOT PROVED") [ -z "$crate" ] || cat "$room/log" ;;
        *)
            if [ -n "$crate" ]; then
                printf '%s\n' "$line" >>"$room/log"
                continue
            fi
            ;;
        esac
        crate=
        case $line in
        'rt: '*': its tests are '*) printf '%s\n' "$line" ;;
        'rt: '*' proved' | 'rt: '*' NOT PROVED'* | 'rt: '*' is kept: '*)
            proved=$((proved + 1))
            echo "crate $proved of $crates, $(so_far): ${line#rt: }"
            ;;
        'rt: must-fail '*)
            # rt says of all edits at the end what became of them
            turn programs
            tried=$((tried + 1))
            echo "edit $tried of $edits: ${line#rt: must-fail }"
            ;;
        'rt: '*' ran'* | 'rt: '*': the program '*)
            turn programs
            printf '%s\n' "$line"
            ;;
        *) printf '%s\n' "$line" ;;
        esac
    done
    [ -z "$crate" ] || cat "$room/log"
    turn end
}

{
    rt ci 2>&1
    echo $? >"$room/ended"
} | tee "$room/said" | follow
mkdir -p target && cp "$room/said" target/test.log

status=$(cat "$room/ended")
line=$(tail -n 1 "$room/said")
passed=$(printf '%s\n' "$line" | sed -n 's/^\([0-9][0-9]*\) passed, [0-9][0-9]* failed$/\1/p')
failed=$(printf '%s\n' "$line" | sed -n 's/^[0-9][0-9]* passed, \([0-9][0-9]*\) failed$/\1/p')
if [ -z "$failed" ]; then
    echo "proofs: rt ci ended without its counts"
    passed=0 failed=1
fi
if [ "$status" -eq 0 ]; then
    # rt: ok; handles allowed: none; must-fail edits: 99 refused, 2 of them only by a limit, 1 bad; ..
    ok=$(grep '^rt: ok; ' "$room/said" | tail -n 1)
    bad=$(printf '%s\n' "$ok" | sed -n 's/.*; must-fail edits: [^;]*, \([0-9][0-9]*\) bad;.*/\1/p')
    if [ -z "$ok" ]; then
        echo "proofs: rt ci ended well without saying so"
        failed=$((failed + 1))
    elif [ -n "$bad" ]; then
        echo "proofs: must-fail edits that cannot be applied or read: $bad"
        failed=$((failed + bad))
    fi
elif [ "$failed" -eq 0 ]; then
    failed=1
fi
echo "$passed passed, $failed failed"
[ "$failed" -eq 0 ]
