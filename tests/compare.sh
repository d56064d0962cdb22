#!/usr/bin/env bash
# The archive against the second program, call by call, among the calls at least
# 50,000 that compare two text lists, and those that replay at least 20,000 traces.
# Arguments, if any, are the number of calls and the seed.
source "$(dirname "${BASH_SOURCE[0]}")/common.bash"

cd "$root/rust"
quietly "cargo test of compare" cargo test --offline --locked --release -p compare
sed -i -n "s/^test \(.*\) \.\.\. ok$/ok compare: \1/p" "$log"
count_oks compare

quietly "compare does not build" cargo build --offline --locked --release -p compare
compare=$root/target/rust/release/compare
status=0
"$compare" "$@" >"$log" 2>&1 || status=$?
if [ "$status" -ge 101 ]; then
    COMPARE_TRACE=yes "$compare" "$@" 2>&1 >/dev/null | tail -n 500 | tac | sed '/^#\[test\]/q' | tac || true
    fail "compare: this call stopped the program (status $status)"
elif [ "$status" -ne 0 ]; then
    cat "$log"
    fail "compare"
fi
last=$(tail -n 1 "$log")
[[ $last =~ ^compared\ [0-9]+\ calls:\ all\ equal$ ]] || fail "compare: its last line is '$last'"
# often WHAT LEAST: in a run of the usual length it was met that often.
often() {
    local times
    times=$(sed -n "s/^$1: \([0-9]*\) times$/\1/p" "$log")
    [ "$arguments" -gt 0 ] || [ "${times:-0}" -ge "$2" ] || fail "compare: only ${times:-0} times $1"
}
arguments=$#
often "two text lists" 50000
often traces 20000
sed -i -n 's/^\(.*: [1-9][0-9]* \(calls\|times\)\)$/ok compare: \1/p' "$log"
count_oks compare

finish
