#!/usr/bin/env bash
# The program's word replay: answers by hand, random traces against the second program, the end of the input, long lines, failures and memory
# (tests/replay.py), the recorded day of the class, and the time that a million questions take. LEAPSEC may name another build of the program.
source "$(dirname "${BASH_SOURCE[0]}")/common.bash"

cd "$root"
if [ -z "${LEAPSEC-}" ]; then
    quietly "tools/build leapsec" tools/build leapsec
    LEAPSEC=$root/target/bin/leapsec
fi
quietly "the second program does not build" env -C rust cargo build --offline --locked --quiet --release -p second
second=$root/target/rust/release/second

quietly "replay.py" python3 -B tests/replay.py "$LEAPSEC" "$second"
count_oks replay.py

# the recorded day of the class, which docs/CLASS.md tells by the numbers of its lines
day=docs/day.trace
[ "$(wc -l <"$day")" -eq 40 ] || fail "$day has not 40 lines"
cmp -s <("$LEAPSEC" replay <"$day") <("$second" replay <"$day") || fail "the answers to $day differ"
! "$second" replay <"$day" | grep -qx '!20' || fail "$day has a line that is none"
ok "$day is answered as by the second program, and has no line that is none"

# milliseconds COMMAND..: how long it takes to replay a million questions; what it prints goes to $built/million.out
milliseconds() {
    local start
    start=$(date +%s%N)
    cat "$built/million" | "$@" >"$built/million.out"
    echo $((($(date +%s%N) - start) / 1000000))
}
python3 -c '
print("L 6+6+12+12+12+12+12+12+12+18+12+12+24+30+24+12+18+12+12+18+18+18+84+36+42+36+18+125?")
print("\n".join(f"Q {41317 + i % 20_000} {i * 86_399 % 86_400_000_000}" for i in range(1_000_000)))
' >"$built/million"
other=$(milliseconds "$second" replay)
mv "$built/million.out" "$built/million.second"
took=$(milliseconds "$LEAPSEC" replay)
[ "$(wc -l <"$built/million.out")" -eq 1000000 ] || fail "a million questions have $(wc -l <"$built/million.out") answers"
cmp -s "$built/million.out" "$built/million.second" || fail "the answers to a million questions differ"
rm "$built/million" "$built/million.out" "$built/million.second"
[ "$took" -le 30000 ] || fail "a million questions take $took ms, more than 30 s"
ok "a million questions through a pipe in $took ms, answered as by the second program, which takes $other ms"

finish
