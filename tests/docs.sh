#!/usr/bin/env bash
# Every command shown in README.md, in docs/CLASS.md and in the help texts prints what is shown, every link there leads somewhere, the tables of
# README.md and docs/PROMISES.md name files and theorems that are there, the pictures are as their program draws them, and the README's C and
# Rust examples compile and do what they say.
source "$(dirname "${BASH_SOURCE[0]}")/common.bash"

cd "$root"
quietly "tools/build leapsec" tools/build leapsec
quietly "./leapsec" ./leapsec help # which says that it builds, where it does
for document in README.md docs/CLASS.md; do
    quietly "$document" python3 -B tests/docs.py "$document"
    count_oks "$document"
done

quietly "the tables" python3 -B tests/tables.py README.md docs/PROMISES.md
count_oks "the tables"

# a help text's example, as a document: from its first `$ ` on
export PATH=$root/target/bin:$PATH
words=$(leapsec help | sed -n 's/^leapsec \([a-z]*\).*/\1/p')
[ "$(wc -w <<<"$words")" -eq 13 ] || fail "help has not thirteen words: $words"
for word in $words; do
    leapsec help "$word" | sed -n '1i```console
/^\$ /,$p
$a```' >"target/tests/help.$word"
    grep -q "^\$ .*leapsec $word" "target/tests/help.$word" || fail "help $word has no example"
    quietly "help $word" python3 -B tests/docs.py "target/tests/help.$word"
    count_oks "help $word"
done

quietly "the pictures" python3 tools/pictures.py --check
count_oks "the pictures"

# indented HEADING: the indented lines of a part of README.md
indented() {
    awk -v heading="## $1" '/^## / { on = $0 == heading } on && /^    / { print substr($0, 5) }' README.md
}

# the examples of "In C", between the usual first and last lines
{
    printf '#include <stdio.h>\n#include "leap.h"\nint main(void) {\n'
    indented "In C" |
        sed -e 's|/\* nanos is \([0-9]*\) \*/|if (nanos == \1u) puts("ok the C example of README.md"); else return 1;|' \
            -e 's|/\* tai is \([0-9]*\) and \([0-9]*\) \*/|if (tai[0] == \1u \&\& tai[1] == \2u) { puts("ok its example of many questions"); return 0; }|'
    printf 'return 1;\n}\n'
} >"$built/readme.c"
quietly "the C example does not compile" gcc -std=c99 "${strict[@]}" "$built/readme.c" "$LEAP_LIB_DIR/libleap.a" -o "$built/readme"
quietly "the C example" "$built/readme"
count_oks "the C example"

# the example of "In Rust", in a package beside the repository, which finds the archive where the repository has it
package=$built/rust/package
rm -rf "$built/rust"
mkdir -p "$package/src"
ln -s "$root" "$built/rust/mkhedruza"
{
    printf '[package]\nname = "package"\nversion = "0.1.0"\nedition = "2021"\n\n[dependencies]\n'
    indented "In Rust" | grep '^leap = '
} >"$package/Cargo.toml"
indented "In Rust" | grep -v '^leap = ' >"$package/src/main.rs"
grep -q assert_eq "$package/src/main.rs" || fail "README.md has no Rust example"
if [ "$LEAP_LIB_DIR" = "$root/target/staticlib" ]; then unset LEAP_LIB_DIR; fi
quietly "the Rust example" env -C "$package" cargo run --offline --quiet
rm "$built/rust/mkhedruza"
ok "the Rust example of README.md"
finish
