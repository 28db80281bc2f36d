#!/bin/sh
# wishes.sh: whether scripts/night.awk makes of wishes the numbers that the program night reads. Status 0 where it does. The places are
# those of crates/night_plan/src/wish.rt, so that names and program cannot part.
set -eu
cd "$(dirname "$0")/.."
usual=$(cat crates/night/args)

numbers() { WISHES=$1 awk -f scripts/night.awk crates/night/args; }

fail() {
    echo "wishes: $1"
    exit 1
}

# line CONSTANT OFFSET: the number's line, counted from 1
line() {
    first=$(sed -n "s/^const $1: usize = \([0-9]*\);\$/\1/p" crates/night_plan/src/wish.rt)
    [ -n "$first" ] || fail "there is no place $1 in night_plan"
    echo $((first + $2))
}

[ "$(numbers '')" = "$usual" ] || fail "without a wish it is not the usual night"
[ "$(echo "$usual" | wc -l)" -eq "$(line LOSE 0)" ] || fail "the usual night has not as many numbers as the program reads"
while read -r name constant offset; do
    at=$(line "$constant" "$offset")
    for wish in "$name" "$(echo "$name" | tr '[:lower:]' '[:upper:]')"; do
        [ "$(numbers "$wish=999999")" = "$(echo "$usual" | sed "${at}s/.*/999999/")" ] || fail "$wish does not change number $at alone"
    done
done <<END
p P 0
n N 0
share0 SHARE 0
share1 SHARE 1
share2 SHARE 2
ceiling0 CEILING 0
ceiling1 CEILING 1
ceiling2 CEILING 2
news SIZE 0
map SIZE 1
station SIZE 2
every EVERY 0
files FILES 0
frames FRAMES 0
lose LOSE 0
END
for wish in q=1 p p= =1 p=-1 p=1x p=1000000 p==1 'n=3 q=1'; do
    ! numbers "$wish" >/dev/null || fail "$wish is taken"
done
