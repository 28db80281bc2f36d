#!/bin/sh
# cases.sh: writes the stored cases of each answering program (scripts/programs.txt) and the answers of the second program to them.
set -eu
ROOT=$(cd "$(dirname "$0")/.." && pwd -P)
. "$ROOT/scripts/kit.sh"
build_reference
begun=
while read -r name first last; do
    case $name in '' | '#'*) continue ;; esac
    stored=$ROOT/crates/$name
    # the cases of a program's later lines go behind those of its first
    case " $begun " in
    *" $name "*) ;;
    *) : >"$stored/stdin" ;;
    esac
    begun="$begun $name"
    "$REFERENCE" generate 1 100 "$first" "$last" >>"$stored/stdin"
    "$REFERENCE" answer <"$stored/stdin" >"$stored/stdout"
    ls -l "$stored/stdin" "$stored/stdout"
done <"$ROOT/scripts/programs.txt"
