# Sourced by the other scripts (POSIX sh): where the kit is, and how a program of this repository is run.
# ROOT is the repository. The kit is found through rt itself.

# need TOOL WHAT-FOR: ends with one sentence where a tool is missing
need() {
    command -v "$1" >/dev/null 2>&1 && return
    echo "$1 is missing: it is needed $2." >&2
    exit 2
}

need rt "to prove and to run the crates (the Rattle kit)"
KIT=$(dirname "$(rt doc)")
TOOLS=$KIT/toolchain
if [ ! -d "$TOOLS" ]; then
    echo "The Rattle kit in $KIT has no toolchain." >&2
    exit 2
fi

# program NAME: where rt leaves the executable of a program of this repository that it proved
program() { echo "$ROOT/crates/$1/out/$1"; }

# run_program NAME ARGS..: such a program
run_program() {
    executable=$(program "$1")
    shift
    "$executable" "$@"
}

# archive_of NAME: where rt leaves what C links of the crate NAME, a static library; build_archive NAME: proves and builds it
archive_of() { echo "$ROOT/crates/$1/out/lib$1.a"; }
build_archive() { (cd "$ROOT/crates/$1" && rt lib); }

# build_reference: the second program, from source, with no network
build_reference() {
    need cargo "to build the second program in reference/ (Rust)"
    REFERENCE=$ROOT/reference/target/release/reference
    (cd "$ROOT/reference" && cargo build --release --offline --quiet) || {
        echo "The second program in reference/ does not build." >&2
        return 1
    }
}
