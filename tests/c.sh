#!/usr/bin/env bash
# The header and the archive from C: the header alone, a source of its version 1,
# its example and its loop, what the archive holds, every call on good and bad
# input, and the stack that each uses.
source "$(dirname "${BASH_SOURCE[0]}")/common.bash"

alone() {
    local compiler=$1 language=$2 standard=$3
    quietly "leap.h alone as $standard" \
        "$compiler" "-std=$standard" "${strict[@]}" -x "$language" -fsyntax-only "$root/include/leap.h"
    ok "header: alone as $standard"
}
alone gcc c c99
alone gcc c c17
alone g++ c++ c++98
alone g++ c++ c++17

# The last word of a schedule was `expiry`, a month, in version 1 of the interface: a source that uses it must not compile.
uses() {
    printf '#include "leap.h"\nuint32_t used(const leap_schedule *s) { return s->%s; }\n' "$1" \
        | LC_ALL=C gcc -std=c99 "${strict[@]}" -x c -fsyntax-only -
}
quietly "a source that uses expiry_mjd does not compile" uses expiry_mjd
! uses expiry >"$log" 2>&1 || fail "a source that uses the field expiry compiles"
grep -q "no member named 'expiry'" "$log" || fail "a source that uses the field expiry does not compile, for another reason"
ok "header: a source that uses the field of version 1 does not compile"

# The example stands in the header's first comment, indented by five.
{
    printf '#include <assert.h>\n#include <stdio.h>\n#include "leap.h"\nint main(void)\n{\n'
    sed -n '/^#/q; s/^ \*     //p' "$root/include/leap.h"
    printf 'return no;\n}\n'
} >"$built/example.c"
grep -q leap_read_text "$built/example.c" || fail "the header has no example"
quietly "the header's example does not compile" gcc -std=c99 "${strict[@]}" \
    "$built/example.c" "$LEAP_LIB_DIR/libleap.a" -o "$built/example"
quietly "the header's example" "$built/example"
ok "header: its example"

# The loop of leap_replay stands in its comment, indented by five. Through it goes a trace that is longer than its buffers, with a line of
# 100,000 bytes in it and half a line at its end; each question is the one of 12/14.
{
    printf '#include <stdio.h>\n#include <string.h>\n#include "leap.h"\nint main(void)\n{\n'
    sed -n '/fixed buffers, a trace of any length/,/^uint8_t leap_replay(/s/^ \*     //p' "$root/include/leap.h"
    printf 'return 0;\n}\n'
} >"$built/loop.c"
grep -q 'leap_replay_end(' "$built/loop.c" || fail "the header has no loop of leap_replay"
quietly "the header's loop does not compile" gcc -std=c99 "${strict[@]}" -g -fsanitize=address,undefined \
    "$built/loop.c" "$LEAP_LIB_DIR/libleap.a" -o "$built/loop"
# some COUNT LINE: that line, that often
some() {
    awk -v count="$1" -v line="$2" 'BEGIN { while (count-- > 0) print line }'
}
{
    echo 'L 6+5?'
    some 3000 'Q 41498 86400000000'
    some 100000 x | tr -d '\n'
    echo
    some 3000 'Q 41498 86400000000'
    printf 'Q 41498 864'
} | "$built/loop" >"$log"
{
    some 3000 '41498 86399001000000'
    echo '!20'
    some 3000 '41498 86399001000000'
    echo '!20'
} | cmp -s - "$log" || fail "the header's loop of leap_replay"
ok "header: its loop of leap_replay"

# A declaration starts a line with the type returned, a number or a count.
declared=$(sed -nE 's/^uint(8|64)_t (leap_[a-z_]*)\(.*/\2/p' "$root/include/leap.h" | sort)
defined=$(nm -g --defined-only "$LEAP_LIB_DIR/libleap.a" | awk 'NF == 3 { print $3 }' | sort)
[ -n "$declared" ] && [ "$declared" = "$defined" ] \
    || fail "the header declares ${declared//$'\n'/ }, the archive defines ${defined//$'\n'/ }"
ok "archive: the header's functions and no others"

size "$LEAP_LIB_DIR/libleap.a" | awk 'NR > 1 { sum += $2 + $3; n++ } END { exit !n || sum }' \
    || fail "the archive has data that can change"
ok "archive: no data that can change, so no state"

# Readers clear the words that they fill, the nybble writer and calls for many make arrays, calls about two texts read both into words of their
# own, a replay stores and resets; a single question, the text writer and the question of extension look at the words where they stand.
listing=$(objdump -dr "$LEAP_LIB_DIR/libleap.a")
# within PATTERN: the functions whose code shows it
within() {
    awk -v pattern="$1" '/^[0-9a-f]+ <.*>:$/ { name = $2 } $0 ~ pattern { print name }' <<<"$listing" | sort -u
}
copying=$(within 'mem(cpy|move|set)')
grep -q '<leap_read_text>' <<<"$copying" || fail "objdump shows no copy at all"
copiers='leap_read_|leap_write_nybbles>|leap_.*_many>|leap_(compare_text|longer_text)>|leap_replay>|(text|nybbles|compare|replay|many)::'
others=$(grep -vE "^<($copiers)" <<<"$copying") || true
[ -z "$others" ] || fail "the archive copies or clears memory in ${others//$'\n'/ }"
[ -z "$(within 'memcpy' | grep -vE '^<(leap_.*_many>|many::|leap_replay>|replay::)')" ] || fail "the archive copies words where it should look at them"
ok "archive: no single question, text writer or extension copies or clears memory, and no reader or comparison copies"

for test in lists times malformed many compare replay; do
    compiled "$test" -g -fsanitize=address,undefined
    quietly "$test" "$built/$test"
    count_oks "$test"
done

# Bound at once, since the binding of a library call would use stack of its own.
compiled stack -O2 -pthread -Wl,-z,now
quietly "stack" "$built/stack"
count_oks stack

finish
