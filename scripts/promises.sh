#!/bin/sh
# promises.sh: every public function of every library, held against docs/PROMISES.md. One fails where
#   - it has no `ensures`, or it has a `requires`;
#   - it has no row in docs/PROMISES.md, or the theorems `.. : Settles (..)` that the row names do not settle its answer and all that it is lent by `&mut`.
#     A row's fifth column names theorems of crates/NAME/proofs/Settled.antt of the row's crate, or of the one that it says: (crates/NAME).
# A theorem counts where its statement is the promise: each of its parts, read with `i` and `o` as unknowns, is word for word a part of an `ensures` of
# the call; the same unknown stands for the same term all through, one of `o` for the answer or for a lent place at the exit, one of `i` for nothing of the
# kind. What the theorem then settles is what its `o` stand for.
# A row of a function that is not there, an edit that a row's last column names and that is not there, and one that no row names, fail too. Edits of
# definitions that no call's promise names stand in the rows of "Theorems that a wrong definition loses".
# The rows of "Calls without a full promise" excuse from the second, and from having an `ensures` only where they say "safe and ending, no more"; a row
# without grounds excuses nothing.
# The last line is 'N passed, M failed'; status 0 only where M is 0.
set -u
cd "$(dirname "$0")/.." || exit 2
sources=
for crate in $(sed -n 's/^\([a-z_0-9]*\)[^#:]*:.*/\1/p' crates.txt); do
    [ -f "crates/$crate/src/lib.rt" ] && sources="$sources $(find "crates/$crate/src" -name '*.rt' | sort)"
done
# shellcheck disable=SC2046,SC2086
find crates/*/must-fail crates/*/wrong -name '*.edit' 2>/dev/null | sort | awk -f scripts/promises.awk - docs/PROMISES.md crates/*/proofs/Settled.antt $sources
