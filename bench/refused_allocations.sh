#!/bin/sh
# Refuses each allocation of the program's stored run in turn, by `rt try --fail-alloc N`: the run must
# print `failed 21 Memory` alone, with status 3, or the right lines, with status 0. It ends once three runs
# after one another gave the right lines, since the program then makes fewer allocations. Each takes some
# 25 seconds: bench/refused_allocations.sh [FIRST [LAST]]
cd "$(dirname "$0")/../crates/ftd" || exit 1
folder=$(mktemp -d) || exit 1
trap 'rm -rf "$folder"' EXIT
number=${1:-1}
right=0
while [ "$number" -le "${2:-200}" ] && [ "$right" -lt 3 ]; do
    # shellcheck disable=SC2046
    rt try --fail-alloc "$number" -- $(cat args) <stdin >"$folder/out" 2>"$folder/err"
    status=$?
    if [ "$status" = 0 ] && cmp -s "$folder/out" stdout; then
        right=$((right + 1))
        echo "allocation $number: the right lines"
    elif [ "$status" = 3 ] && [ ! -s "$folder/out" ] && grep -qx 'failed 21 Memory' "$folder/err"; then
        right=0
        echo "allocation $number: failed 21 Memory"
    else
        echo "allocation $number: status $status"
        cat "$folder/out" "$folder/err"
        exit 1
    fi
    number=$((number + 1))
done
