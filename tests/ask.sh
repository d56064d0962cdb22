#!/usr/bin/env bash
# The program leapsec against the second program: 100,000 random lines through `ask`, the end of the input, long lines, failures (tests/ask.py),
# questions as arguments and the help texts (tests/arguments.py), the time that a million lines take, and ./leapsec, which builds the program.
# LEAPSEC may name another build of it, and ./leapsec is then left out.
source "$(dirname "${BASH_SOURCE[0]}")/common.bash"

cd "$root"
other=${LEAPSEC-}
if [ -z "$other" ]; then
    quietly "tools/build leapsec" tools/build leapsec
    LEAPSEC=$root/target/bin/leapsec
fi
quietly "the second program does not build" env -C rust cargo build --offline --locked --quiet --release -p second
second=$root/target/rust/release/second

for test in ask.py arguments.py; do
    quietly "$test" python3 -B "tests/$test" "$LEAPSEC" "$second"
    count_oks "$test"
done

python3 -c '
for i in range(1_000_000):
    print("uts current", 41317 + i % 20_000, i * 86_399 % 86_400_000_000)
' >"$built/million"
start=$(date +%s%N)
cat "$built/million" | "$LEAPSEC" ask >"$built/million.leapsec"
took=$((($(date +%s%N) - start) / 1000000))
"$second" ask <"$built/million" | cmp -s - "$built/million.leapsec" || fail "the answers to a million lines differ"
rm "$built/million" "$built/million.leapsec"
[ "$took" -le 30000 ] || fail "a million lines take $took ms, more than 30 s"
ok "a million lines through a pipe in $took ms, answered as by the second program"

if [ -n "$other" ]; then
    finish
    exit
fi

rm -rf "$built/links"
mkdir "$built/links"
ln -s "$root/leapsec" "$built/links/first"
ln -s first "$built/links/second"
[ "$(cd / && "$built/links/second" text F4)" = '5?' ] || fail "./leapsec through a link, from another folder"
# rt ci takes no links
rm -r "$built/links"
ok "./leapsec runs from any folder, and through links"
touch -d 2000-01-01 "$LEAPSEC"
[ "$(echo text F4 | ./leapsec ask 2>"$log")" = '5?' ] || fail "./leapsec does not build the program, or takes its input"
grep -qx 'leapsec: building, .*' "$log" && [ "$(wc -l <"$log")" -eq 1 ] || fail "./leapsec builds without a line that says so"
./leapsec text F4 2>&1 | cmp -s - <(echo '5?') || fail "./leapsec builds again what it has built"
ok "./leapsec builds a program that is older than its crates, with a line that says so, and once"

# ./leapsec in a folder with a crate of no meaning, and on its path only the tools that it uses
umask 022
copy=$(mktemp -d)
trap 'rm -rf "$copy" "$log"' EXIT
chmod 755 "$copy"
mkdir -p "$copy/crates/leapsec" "$copy/tools"
cp leapsec crates.txt "$copy"
touch "$copy/crates/source"
for tool in bash chmod cp dirname find flock mkdir mv readlink rm sleep tail touch; do
    ln -s "$(command -v "$tool")" "$copy/tools/$tool"
done

# says SENTENCE COMMAND..: the command ends with status 1, and says that and nothing else.
says() {
    local sentence=$1 status=0
    shift
    PATH=$copy/tools "$@" >"$log" 2>&1 || status=$?
    [ "$status" -eq 1 ] && cmp -s "$log" <(echo "leapsec: $sentence") || fail "./leapsec ends with $status and says: $(cat "$log")"
}
unwritten="the program is missing or older than its crates, and $copy/target can't be written"

says "rt, the Rattle kit's command, is not on the path" "$copy/leapsec" help
ok "./leapsec without rt says so"
rm -r "$copy/target"
touch "$copy/target"
says "$unwritten" "$copy/leapsec" help
rm "$copy/target"
if [ "$(id -u)" -ne 0 ]; then
    chmod 555 "$copy"
    says "$unwritten" "$copy/leapsec" help
    chmod 755 "$copy"
    ok "./leapsec in a folder that can't be written says so"
elif setpriv=$(command -v setpriv); then
    says "$unwritten" "$setpriv" --reuid=65534 --regid=65534 --clear-groups "$copy/leapsec" help
    ok "./leapsec in a folder that can't be written says so"
else
    skip "./leapsec in a folder that can't be written: root writes everywhere, and there is no setpriv"
fi

# an rt that builds a program, during whose first run a source is saved
cat >"$copy/tools/rt" <<'END'
#!/usr/bin/env bash
mkdir -p out
printf '#!/usr/bin/env bash\necho "$@"\n' >out/leapsec
chmod +x out/leapsec
sleep 0.1
[ -e ../../saved ] || touch ../../saved ../source
END
chmod +x "$copy/tools/rt"
for builds in 1 1 0; do
    [ "$(PATH=$copy/tools "$copy/leapsec" text F4 2>"$log")" = 'text F4' ] || fail "./leapsec does not run what it has built"
    [ "$(grep -c '^leapsec: building' "$log")" -eq "$builds" ] || fail "./leapsec takes a source that is saved during a build for built"
done
ok "./leapsec builds again where a source was saved during the build"

finish
