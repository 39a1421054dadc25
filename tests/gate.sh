#!/bin/sh
# The gate, and then what runs or links what it proved: the cases of showfail and of acctsum, and
# the archive. A must-fail edit that cannot be tried fails the gate too: `rt ci` counts it as bad on
# its line `rt: ok`. The gate's words come last.
set -eu
log=$(mktemp)
trap 'rm -f "$log"' EXIT
rt ci > "$log" 2>&1 || {
    cat "$log"
    exit 1
}
if grep -q '^rt: ok.*, [1-9][0-9]* bad' "$log"; then
    cat "$log"
    echo 'gate: a must-fail edit is bad'
    exit 1
fi
sh tests/program.sh showfail
sh tests/showfail.sh target/bin/showfail
sh tests/program.sh acctsum
sh tests/acctsum.sh target/bin/acctsum reference/target/release/reference
make --no-print-directory host
cat "$log"
