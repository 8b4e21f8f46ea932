#!/usr/bin/env bash
# Passes all tests: the proofs, the must-fail edits and the programs by `rt ci`, and whatever stands in tests/. The last line is
# 'N passed, 0 failed' where all of them pass and no must-fail edit is bad, and the exit status is 0 only then.
set -u
cd "$(dirname "$0")" || exit 1
passed=0
failed=0

count() { # STATUS NAME
    if [ "$1" -eq 0 ]; then
        passed=$((passed + 1))
    else
        failed=$((failed + 1))
        echo "FAILED: $2"
    fi
}

log=$(mktemp)
trap 'rm -f "$log"' EXIT
rt ci 2>&1 | tee "$log"
status=${PIPESTATUS[0]}
if [[ $(tail -n 1 "$log") =~ ^([0-9]+)\ passed,\ ([0-9]+)\ failed$ ]]; then
    passed=${BASH_REMATCH[1]}
    failed=${BASH_REMATCH[2]}
    [ "$status" -eq 0 ] || [ "$failed" -gt 0 ] || count 1 "rt ci: exit status $status"
else
    count 1 "rt ci: no verdict"
fi
# rt ci passes where a must-fail edit cannot be applied or read, and says so in its line 'rt: ok' alone.
if [ "$failed" -eq 0 ]; then
    said=$(grep '^rt: ok' "$log")
    [[ $said && ! $said =~ ,\ [0-9]+\ bad ]]
    count $? "rt ci: a bad must-fail edit, or no line 'rt: ok'"
fi

for test in tests/*.sh; do
    [ -e "$test" ] || continue
    bash "$test"
    count $? "$test"
done

echo "$passed passed, $failed failed"
[ "$failed" -eq 0 ]
