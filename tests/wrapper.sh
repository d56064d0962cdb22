#!/usr/bin/env bash
# The tests of the Rust wrapper, its documentation's examples among them, and of
# the second program; and that the benchmark builds, without ERFA.
source "$(dirname "${BASH_SOURCE[0]}")/common.bash"

cd "$root/rust"
for crate in leap second; do
    quietly "cargo test of $crate" cargo test --offline --locked -p "$crate"
    sed -i -n "s/^test \(.*\) \.\.\. ok$/ok $crate: \1/p" "$log"
    count_oks "$crate"
done

quietly "cargo build of bench" cargo build --release --offline --locked -p bench
ok "the benchmark builds"

finish
