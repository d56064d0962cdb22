# Sourced by the test scripts: where things are, the archive, and the counting.
# A script's last line is 'N passed, 0 failed', with ', K skipped' where some
# were; a failure ends it with status 1 and without that line.
set -euo pipefail

root=$(cd "$(dirname "${BASH_SOURCE[0]}")/.." && pwd)
built=$root/target/tests
log=$(mktemp)
trap 'rm -f "$log"' EXIT
passed=0
skipped=0

ok() {
    echo "ok $1"
    passed=$((passed + 1))
}

fail() {
    echo "FAILED $1"
    exit 1
}

skip() {
    echo "skipped $1"
    skipped=$((skipped + 1))
}

finish() {
    local rest=
    if [ "$skipped" -gt 0 ]; then rest=", $skipped skipped"; fi
    echo "$passed passed, 0 failed$rest"
}

# quietly WHAT COMMAND..: runs the command; its output, in $log, is shown if it fails.
quietly() {
    local what=$1
    shift
    if ! "$@" >"$log" 2>&1; then
        cat "$log"
        fail "$what"
    fi
}

# Counts and shows the 'ok' lines of $log, of which there must be some.
count_oks() {
    local lines
    lines=$(grep -c '^ok ' "$log") || fail "$1: nothing was checked"
    grep '^ok ' "$log"
    passed=$((passed + lines))
}

# The archive's folder, for the linkers here and in build.rs.
if [ -n "${LEAP_LIB_DIR-}" ]; then
    LEAP_LIB_DIR=$(cd "$LEAP_LIB_DIR" && pwd)
else
    LEAP_LIB_DIR=$root/target/staticlib
    archive=$LEAP_LIB_DIR/libleap.a
    if ! [ -f "$archive" ] || [ -n "$(find "$root/crates" "$root/crates.txt" -name out -prune -o -newer "$archive" -print -quit)" ]; then
        cd "$root"
        echo "the archive is missing or older than the crates: building it first, with tools/build archive" >&2
        quietly "tools/build archive" tools/build archive
    fi
fi
export LEAP_LIB_DIR
mkdir -p "$built"

strict=(-Wall -Wextra -Werror -pedantic "-I$root/include")

# compiled NAME FLAGS..: tests/c/NAME.c, linked with the archive, as $built/NAME.
compiled() {
    local name=$1
    shift
    quietly "$name.c does not compile" gcc -std=c99 "${strict[@]}" \
        "$root/tests/c/$name.c" "$LEAP_LIB_DIR/libleap.a" -o "$built/$name" "$@"
}
