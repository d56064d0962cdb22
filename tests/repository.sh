#!/usr/bin/env bash
# Facts about the repository that no proof states.
set -euo pipefail
cd "$(dirname "${BASH_SOURCE[0]}")/.."
passed=0
fail() { echo "FAILED: $1"; exit 1; }
ok() { echo "ok $1"; passed=$((passed + 1)); }

crates=$(sed 's/#.*//; s/:.*//; s/ staticlib//' crates.txt | tr -d ' ' | grep -v '^$')

python3 tools/month_table.py | cmp -s - crates/calendar/src/table.rt || fail "crates/calendar/src/table.rt is not what tools/month_table.py prints"
ok "the month table is what its generator prints"

python3 tools/refusals.py --check || fail "the refusals are not everywhere as tools/refusals.txt has them"
ok "the refusals are everywhere as their table has them"

# every public function of a library, and every method of its public traits, has an `ensures` and no `requires`. Of the functions in these files,
# which write to standard output, no contract could say what they do: they have none, and no `requires`. Nor of what says on standard error why a
# write failed
effects="crates/shell/src/help.rt crates/shell/src/output.rt"
for crate in $crates; do
    [ -f "crates/$crate/src/lib.rt" ] || continue
    for file in crates/"$crate"/src/*.rt; do
        case " $effects " in *" $file "*) said=1 ;; *) said=0 ;; esac
        bad=$(awk -v said="$said" '
            /^[ \t]*\/\// { next }
            /^[ \t]*pub trait / { trait = 1 }
            /^\}/ { trait = 0 }
            /^[ \t]*pub (extern "C" )?fn / || (trait && /^[ \t]*fn /) { name = $0; ensures = said; open = 1 }
            open && /requires/ { print "a public function with a requires: " name; open = 0 }
            open && /ensures/ { ensures = 1 }
            open && trait && /;[ \t]*$/ { if (!ensures) print "a method of a public trait without an ensures: " name; open = 0 }
            open && /^[ \t]*\{[ \t]*$/ { if (!ensures) print "a public function without an ensures: " name; open = 0 }
            open && /\{[ \t]*$/ && !/ensures|requires/ { if (!ensures) print "a public function without an ensures: " name; open = 0 }
        ' "$file")
        [ -z "$bad" ] || fail "$file: $bad"
    done
done
ok "every public function and trait method of a library has an ensures, but for those that write to standard output, and no requires"

# no contract says how a month is found. By the text of the code: from an estimate, with no table, no loop and no function that calls itself
code=$(sed 's|//.*||' crates/calendar/src/lib.rt)
body() {
    awk -v name="fn $1(" 'index($0, name) { on = 1 } on && /^\}/ { exit } inside { print } on && /^\{/ { inside = 1 }' <<<"$code"
}
# calls FUNCTION CALLED..: its body has no loop and no table, and calls these functions, by their names' order, and no others
calls() {
    local name=$1 found
    shift
    [ -n "$(body "$name")" ] || fail "crates/calendar/src/lib.rt has no function $name"
    ! body "$name" | grep -wE 'while|loop|for|MONTH_STARTS' || fail "calendar::$name has a loop, or reads the table"
    found=$(body "$name" | { grep -oE '\b[a-z_0-9:]+\(' || true; } | tr -d '(' | sort -u | paste -sd ' ')
    [ "$found" = "$*" ] || fail "calendar::$name calls '$found', not '$*'"
}
calls estimate
calls computed_start u64::from
calls month_by_estimate computed_start estimate
calls month_of month_by_estimate
calls latest_month month_by_estimate
calls at_most_last min u32::from
calls first_day at_most_last computed_start u32::from
calls is_first first_day latest_month
ok "the month of a day comes from an estimate, and whether it is a first, with no table, no loop and no function that calls itself"

# what a crate assumes is counted on the last line of its check; a library assumes nothing. That each is proved from nothing is `rt ci`'s to see
for crate in $crates; do
    [ -f "crates/$crate/src/lib.rt" ] || continue
    said=$(cd "crates/$crate" && rt check) || fail "rt check of $crate"
    grep -q '^logic=proved' <<<"$said" || fail "$crate has no verdict"
    ! grep -E '^logic=' <<<"$said" | grep -qE 'axioms=|foreign=[1-9]' || fail "$crate rests on an axiom"
done
ok "no library rests on an axiom"

echo "$passed passed, 0 failed"
