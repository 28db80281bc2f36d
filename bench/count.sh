#!/bin/sh
# Instructions per call of the proved code and of plain C, and their ratio, for each row that 'bench list' names, of a row X_bytes the bytes that
# X moves; limits.txt has the limits.
# usage: bench/count.sh [ROW..]
# Status 0: counted. 1: a row is above what limits.txt allows it, the two codes give different answers, or the code of dispersal reads stored data.
# 2: it could not be counted.
set -eu
here=$(cd "$(dirname "$0")" && pwd -P)
ROOT=$(dirname "$here")
out=$ROOT/target/bench

cannot() {
    echo "count.sh: $*" >&2
    exit 2
}

. "$ROOT/scripts/kit.sh"
command -v gcc >/dev/null 2>&1 || cannot "gcc is not installed: the plain C is compiled by it."
emulator=$(command -v qemu-x86_64 || :)
if command -v valgrind >/dev/null 2>&1; then
    counter=valgrind
elif [ -x "$emulator" ]; then
    # one line of log for each instruction, some 0.7 million a second
    counter=$emulator
    single=-one-insn-per-tb
    "$emulator" -h | grep -q -e "$single" || single=-singlestep # its name before qemu 8.1
else
    cannot "neither valgrind nor qemu-user is installed: the instructions are counted by one of them."
fi

bench() { # ARGS..
    "$out/bench" "$@"
}

instructions() { # ARGS..: of a whole run of bench
    if [ "$counter" = valgrind ]; then
        valgrind --tool=callgrind --callgrind-out-file=/dev/null "$out/bench" "$@" 2>&1 >/dev/null | sed -n 's/.*Collected : \([0-9]*\).*/\1/p'
    else
        # without erms, since each turn of a rep instruction would be counted, and glibc's large copies use rep
        "$emulator" -cpu max,-erms "$single" -d nochain,exec -D /dev/stderr "$out/bench" "$@" 2>&1 >/dev/null | grep -c '^Trace' || :
    fi
}

a_turn() { # ROW rattle|c|idle TURNS: by the difference of two runs, in which all but the turns cancels out
    once=$(instructions "$1" "$2" "$3")
    twice=$(instructions "$1" "$2" $((2 * $3)))
    [ "${twice:-0}" -gt "${once:-0}" ] || cannot "no count of $1 by $counter."
    echo $(((twice - once) / $3))
}

count() { # ROW: sets rattle and plain, the instructions of one call, or what the bench itself says of X_bytes
    turns=$(echo "$rows" | sed -n "s/^$1 //p")
    case $1 in *_bytes)
        rattle=$(bench "$1" rattle "$turns") && plain=$(bench "$1" c "$turns") || cannot "no bytes of $1."
        return
        ;;
    esac
    idle=$(a_turn "$1" idle "$turns")
    rattle=$(($(a_turn "$1" rattle "$turns") - idle))
    plain=$(($(a_turn "$1" c "$turns") - idle))
}

mkdir -p "$out"
: >"$out/log"
for crate in meter host; do
    build_archive "$crate" >>"$out/log" 2>&1 || cannot "crates/$crate is not proved or not built: see target/bench/log."
done
gcc -O2 -Wall -Wextra -Werror -static -o "$out/bench" "$here"/*.c "$(archive_of meter)" "$(archive_of host)" ||
    cannot "the bench does not compile."

rows=$(bench list) || cannot "the bench does not run."
calls=${*:-$(echo "$rows" | sed 's/ .*//; /_state$/d')}
status=0
# E6 of 02: dispersal has no table, neither one of its own nor one that the compiler made. Its code then names no place but its own.
places=$(objdump -r -j .text.keshgurvat_disperse "$(archive_of host)") || cannot "no sections of libhost.a by objdump."
if echo "$places" | grep -q R_X86_64; then
    echo "disperse: its code reads stored data"
    status=1
fi
printf '%-18s %10s %10s %7s %9s %9s\n' '' Rattle 'gcc -O2' ratio limit 'by value'
for call in $calls; do
    echo "$rows" | grep -q "^$call " || cannot "there is no row $call."
    # the state handed over and back: what the call costs more than the C where its first test refuses it
    state=
    if echo "$rows" | grep -q "^${call}_state "; then
        count "${call}_state"
        state=$((rattle - plain))
    fi
    count "$call"
    line=$(sed 's/#.*//' "$here/limits.txt" | awk -v n="$call" '$1 == n')
    [ -n "$line" ] || cannot "limits.txt has no line of $call."
    echo "$line" | awk -v n="$call" -v r="$rattle" -v c="$plain" -v state="$state" '{
        of = n !~ /_bytes$/ && $2 < 1000 ? r / c : r # a limit of 1,000 and more is one of instructions, and of X_bytes any is one of bytes
        printf "%-18s %10d %10d %7.2f %9s %9s", n, r, c, r / c, $2, state
        if (of > $2) {
            why = $0; sub(/^[^ ]+ +[^ ]+ +[^ ]+ */, "", why)
            if (NF < 3) printf "  above its limit"
            else if (of > $3) printf "  above its limit, and above the %s that is allowed", $3
            else printf "  above its limit, up to %s allowed: %s", $3, why
        }
        printf "\n"
        exit of > $2 && (NF < 3 || of > $3)
    }' || status=1
    case $call in *_bytes) continue ;; esac # what is said of it are no answers
    if [ "$(bench "$call" rattle "$turns")" != "$(bench "$call" c "$turns")" ]; then
        echo "$call: the two give different answers"
        status=1
    fi
done
exit $status
