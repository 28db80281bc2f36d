#!/bin/sh
# host.sh [SEED]: the C host. Builds the archive of the proved crate host, compiles host/ with the kit's own compiler, which needs no package, and
# runs the comparison and the example; then the same by gcc where there is one; then from an installed copy.
# The last line is 'N passed, M failed'; status 0 only where M is 0.
set -u
ROOT=$(cd "$(dirname "$0")/.." && pwd -P)
cd "$ROOT" || exit 2
seed=${1:-1}
passed=0 failed=0
. "$ROOT/scripts/kit.sh"
out=$ROOT/target/host archive=$(archive_of host)
mkdir -p "$out"

finish() {
    echo "$passed passed, $failed failed"
    [ "$failed" -eq 0 ] && [ "$passed" -gt 0 ]
    exit $?
}

# step NAME COMMAND..: passes or fails as a whole; what it wrote is shown where it fails
step() {
    label=$1
    shift
    if "$@" >"$out/log" 2>&1; then
        passed=$((passed + 1))
        echo "$label: passed"
    else
        failed=$((failed + 1))
        tail -n 20 "$out/log"
        echo "$label: FAILED"
        return 1
    fi
}

# counts NAME COMMAND..: the last line that the command writes has the counts
counts() {
    label=$1
    shift
    "$@" >"$out/log" 2>&1
    status=$?
    line=$(tail -n 1 "$out/log")
    n=$(printf '%s\n' "$line" | sed -n 's/^\([0-9][0-9]*\) passed, [0-9][0-9]* failed$/\1/p')
    m=$(printf '%s\n' "$line" | sed -n 's/^[0-9][0-9]* passed, \([0-9][0-9]*\) failed$/\1/p')
    # one that ended early, or otherwise than its counts say, is a failure of its own
    if [ -z "$n" ] || { [ "$status" -ne 0 ] && [ "$m" -eq 0 ]; }; then
        n=${n:-0} m=$((${m:-0} + 1))
        line="ended with status $status"
    fi
    passed=$((passed + n)) failed=$((failed + m))
    [ "$m" -eq 0 ] || tail -n 30 "$out/log"
    echo "$label: $line"
    [ "$m" -eq 0 ]
}

strict='-O2 -Wall -Wextra -Wpedantic -Werror'

# kit_cc WORDS..: the kit's compiler has no headers, and host/compat has the few names of C's that are used
kit_cc() {
    # shellcheck disable=SC2086
    "$TOOLS/bin/clang" --target=x86_64-unknown-linux-gnu --no-default-config -nostdinc -isystem host/compat $strict -fPIE "$@"
}

# kit_link PROGRAM FILES..
kit_link() {
    program=$1
    shift
    "$KIT/bin/rattle-link" --target x86_64-unknown-linux-gnu --toolchain "$TOOLS" -o "$program" "$@"
}

kit_build() {
    for name in test model example; do
        kit_cc -std=c11 -c "host/$name.c" -o "$out/$name.o" || return
    done
    kit_link "$out/test" "$out/test.o" "$out/model.o" "$archive" && kit_link "$out/example" "$out/example.o" "$archive"
}

# kit_header LANGUAGE STANDARD: the header by itself
kit_header() {
    echo '#include "keshgurvat.h"' | kit_cc -Ihost -x "$1" "-std=$2" -fsyntax-only -
}

step "the archive, proved" build_archive host || finish
# what README says of it, where there is an nm: the archive calls nothing of the C library but these two
needs_two_alone() {
    others=$(nm -u "$archive" | awk '$1 == "U" && $2 != "memcpy" && $2 != "memset" { print $2 }' | sort -u)
    echo "it needs besides: $others"
    [ -z "$others" ]
}
if command -v nm >/dev/null 2>&1; then step "it needs memcpy and memset alone" needs_two_alone; fi
for kind in 'c c99' 'c c11' 'c++ c++11' 'c++ c++17'; do
    # shellcheck disable=SC2086
    step "the header as ${kind#* }" kit_header $kind
done
if step "the kit's compiler" kit_build; then
    counts "comparison, kit" "$out/test" "$seed" && sed '$d' "$out/log"
    step "example, kit" "$out/example" && cat "$out/log"
fi

# a second compiler
gcc=$(command -v gcc) || gcc=
gcc_build() { # PROGRAM FILES.., in C99
    program=$1
    shift
    # shellcheck disable=SC2086
    gcc -std=c99 $strict -static -o "$program" "$@"
}
if [ -n "$gcc" ]; then
    step "gcc" gcc_build "$out/test.gcc" host/test.c host/model.c "$archive" && counts "comparison, gcc" "$out/test.gcc" "$seed"
    step "gcc, example" gcc_build "$out/example.gcc" host/example.c "$archive" && step "example, gcc" "$out/example.gcc"
else
    echo "There is no gcc here, so no second compiler was tried."
fi

# from an installed copy, with the flags of its pkg-config file alone
prefix=$out/prefix
flags() { # FIELD: read by hand, so that pkg-config is not needed
    sed -n "s|^$1: ||p" "$prefix/lib/pkgconfig/keshgurvat.pc" | sed -e "s|\${includedir}|$prefix/include|g" -e "s|\${libdir}|$prefix/lib|g"
}
from_installed() {
    cp host/example.c "$out/installed.c" || return
    # shellcheck disable=SC2046
    if [ -n "$gcc" ]; then
        gcc -O2 $(flags Cflags) "$out/installed.c" $(flags Libs) -static -o "$out/installed" && "$out/installed" 100
    else
        kit_cc $(flags Cflags) -c "$out/installed.c" -o "$out/installed.o" &&
            kit_link "$out/installed" "$out/installed.o" "$prefix/lib/libkeshgurvat.a" && "$out/installed" 100
    fi
}
rm -rf "$prefix"
step "install" sh scripts/install.sh "$prefix" '' "$archive" && step "example, from the installed copy" from_installed
finish
