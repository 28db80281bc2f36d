#!/bin/sh
# losses.sh: whether the program night, with packets lost on the way, says of them what it should: packets and units lost, bytes dropped, and
# the news pages that came, of which none may be late and none changed. The numbers are those of an account of the night that knows of each
# packet which unit it belongs to. Status 0 where they are the same.
set -eu
ROOT=$(cd "$(dirname "$0")/.." && pwd -P)
cd "$ROOT"
. "$ROOT/scripts/kit.sh"
status=0
[ -x "$(program night)" ] || {
    echo "losses: crates/night/out/night is not there: rt ci, or rt run, has not proved it"
    exit 1
}
while read -r lose packets units dropped pages; do
    # shellcheck disable=SC2046
    text=$(run_program night $(WISHES="lose=$lose" awk -f scripts/night.awk crates/night/args))
    for line in "packets lost on the way: $packets, units lost with them: $units" "bytes dropped by the receiver: $dropped" \
        'units that came back changed: 0' "news pages: $pages delivered"; do
        case "$text," in
        *"
$line
"* | *"
$line,"*) ;;
        *)
            echo "losses: with lose=$lose the night does not say: $line"
            status=1
            ;;
        esac
    done
    case $text in
    *', 0 late,'* | *'news pages: none delivered') ;;
    *)
        echo "losses: with lose=$lose a news page is late"
        status=1
        ;;
    esac
done <<END
0 0 0 0 16
1 960 62 0 none
2 480 62 3977 none
13 73 38 16296 4
50 19 15 10573 13
97 9 8 4462 13
END
exit $status
