#!/bin/bash
# The test command: proves everything and runs the tests (`rt ci`), then runs every text and page of examples with the program that
# it built. The last line is `N passed, M failed` of both together, the one before it how long that took. It needs Rattle's kit, Python 3 and curl.
set -u
cd "$(dirname "$0")" || exit 1
said=$(mktemp) || exit 1
trap 'rm -f "$said"' EXIT

# Each check gets one job, since other checks keep the processors busy, and so many run side by side as there are processors, and as the memory
# that is free holds at 5 GB each.
if [ -z "${RT_JOBS:-}" ]; then
    lanes=$(($(awk '/^MemAvailable:/ { print $2 }' /proc/meminfo) / 5000000))
    [ "$lanes" -le "$(nproc)" ] || lanes=$(nproc)
    [ "$lanes" -ge 1 ] || lanes=1
    export RT_JOBS=$lanes
fi

# runs a command, shows what it prints, and adds the counts of its last line to those before
passed=0
failed=0
count() {
    "$@" | tee "$said"
    local status=${PIPESTATUS[0]} last
    last=$(tail -n 1 "$said")
    if [[ $last =~ ^([0-9]+)\ passed,\ ([0-9]+)\ failed$ ]]; then
        passed=$((passed + BASH_REMATCH[1]))
        failed=$((failed + BASH_REMATCH[2]))
        [ "$status" = 0 ] || [ "${BASH_REMATCH[2]}" != 0 ] || failed=$((failed + 1))
    else
        failed=$((failed + 1))
    fi
}

count rt ci
if [ -x crates/ftd/out/ftd ]; then
    count python3 examples/run.py crates/ftd/out/ftd
else
    echo "examples: no program was built"
    failed=$((failed + 1))
fi
# the second line of `times` is the processor time of all that ran here, in the program and in the system
times > "$said"
read -r program system < <(tail -n 1 "$said")
echo "took $((SECONDS / 60)) minutes; processor time: user $program, system $system"
echo "$passed passed, $failed failed"
[ "$failed" = 0 ]
