#!/usr/bin/env bash
# Real data: the official table of Debian's tzdata against the list that the
# program has built in, and ERFA's eraDat against list B of 01. A test whose
# package is missing, and can't be installed, is skipped.
source "$(dirname "${BASH_SOURCE[0]}")/common.bash"

current='6+6+12+12+12+12+12+12+12+18+12+12+24+30+24+12+18+12+12+18+18+18+84+36+42+36+18+125?'
table=/usr/share/zoneinfo/leap-seconds.list

cd "$root"
quietly "tools/build leapsec" tools/build leapsec
[ "$(target/bin/leapsec text "$(target/bin/leapsec nybbles current)")" = "$current" ] || fail "the list of the program is another one"
ok "the list that the program has built in is the one compared here"

# installed PACKAGE: installs it if this is root on Debian and apt-get can.
updated=
installed() {
    [ "$(id -u)" -eq 0 ] && [ -f /etc/debian_version ] && command -v apt-get >/dev/null || return 1
    if [ -z "$updated" ]; then
        timeout 120 apt-get update -qq >/dev/null 2>&1 || true
        updated=yes
    fi
    DEBIAN_FRONTEND=noninteractive timeout 300 \
        apt-get install -y -qq --no-install-recommends "$1" >/dev/null 2>&1
}

if [ -f "$table" ] || { installed tzdata && [ -f "$table" ]; }; then
    compiled tzdata -O2
    quietly "tzdata" "$built/tzdata" "$table" "$current"
    count_oks tzdata
else
    skip "tzdata: $table is missing and package tzdata can't be installed here"
fi

has_erfa() {
    echo '#include <erfa.h>' | gcc -x c -fsyntax-only - 2>/dev/null
}
if has_erfa || { installed liberfa-dev && has_erfa; }; then
    compiled erfa -O2 -lerfa -lm
    quietly "erfa" "$built/erfa"
    count_oks erfa
else
    skip "erfa: package liberfa-dev is missing and can't be installed here"
fi

finish
