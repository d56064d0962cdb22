#!/usr/bin/env bash
# The papers' figures, and the month of every day from MJD 41310 to 114370: the proved program and the second one print the same lines, which
# the gate also holds to the proved program's file `stdout`. The figures there were written by hand from the papers, the months by the second
# program. And every figure of the second program is as the papers say.
source "$(dirname "${BASH_SOURCE[0]}")/common.bash"

cd "$root"
quietly "tools/build figures months" tools/build figures months
quietly "the second program does not build" env -C rust cargo build --offline --locked --quiet --release -p second
second=target/rust/release/second

# agree PROGRAM WORD WHAT: the proved program and the second one with that word print the same lines, which are the file's.
agree() {
    "target/bin/$1" >"$built/$1.proved"
    "$second" "$2" >"$built/$1.second"
    quietly "the two programs differ in the $3" diff "$built/$1.proved" "$built/$1.second"
    quietly "the $3 are not those of crates/$1/stdout" diff "$built/$1.second" "crates/$1/stdout"
    ok "$(wc -l <"crates/$1/stdout") lines of $3 are the same in both programs"
}
agree figures plain figures
agree months months "stretches of days"
quietly "second figures" "$second" figures
! grep -q 'WRONG' "$log" || fail "a figure of the second program is wrong"
ok "$(grep -c ' ok$' "$log") figures of the second program are the papers'"
finish
