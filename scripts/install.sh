#!/bin/sh
# install.sh PREFIX [DESTDIR [ARCHIVE]]: what a host in C needs: PREFIX/include/keshgurvat.h, PREFIX/lib/libkeshgurvat.a and
# PREFIX/lib/pkgconfig/keshgurvat.pc. The archive is proved and built first, unless one is named. DESTDIR goes before the places written to.
set -eu
ROOT=$(cd "$(dirname "$0")/.." && pwd -P)
# the first number rises where a struct or a call of the header changes
VERSION=4.0.0
prefix=${1:-} dest=${2:-} archive=${3:-}
case $prefix in
/*) ;;
'') echo "install.sh: a prefix is needed, as in make install PREFIX=/usr/local." >&2; exit 2 ;;
*) prefix=$PWD/$prefix ;;
esac
if [ -z "$archive" ]; then
    . "$ROOT/scripts/kit.sh"
    archive=$(archive_of host)
    mkdir -p "$ROOT/target"
    build_archive host >"$ROOT/target/install.log" 2>&1 || {
        echo "The library is not proved; target/install.log says why. Nothing is installed." >&2
        exit 1
    }
fi
mkdir -p "$dest$prefix/include" "$dest$prefix/lib/pkgconfig"
cp "$ROOT/host/keshgurvat.h" "$dest$prefix/include/keshgurvat.h"
cp "$archive" "$dest$prefix/lib/libkeshgurvat.a"
cat >"$dest$prefix/lib/pkgconfig/keshgurvat.pc" <<PC
prefix=$prefix
includedir=\${prefix}/include
libdir=\${prefix}/lib

Name: keshgurvat
Description: Verified multiplexer core for Digital Radio Mondiale, for x86-64 Linux
Version: $VERSION
Cflags: -I\${includedir}
Libs: -L\${libdir} -lkeshgurvat
PC
chmod 644 "$dest$prefix/include/keshgurvat.h" "$dest$prefix/lib/libkeshgurvat.a" "$dest$prefix/lib/pkgconfig/keshgurvat.pc"
echo "Installed in $dest$prefix: include/keshgurvat.h, lib/libkeshgurvat.a, lib/pkgconfig/keshgurvat.pc."
