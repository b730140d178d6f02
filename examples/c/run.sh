#!/bin/bash
# Builds the library of crates/ftd_c, and compares what deposits.c, office.c and the same in Python print of it with `wanted`. There stand the
# due dates and makeup dates of docs/TUTORIAL.md, and the answers to an employer's messages after docs/HTTP.md, worked out by hand: 53,000.00
# in the lookback period of 2024 makes a semiweekly depositor, whose days from Wednesday 10 to Friday 12 January are due on Thursday 18, since
# Monday 15 is a holiday. It needs Rattle's kit, with `rt` on the path, gcc and Python 3. The memory and the clock are the C library's, by the
# kit's own functions.
set -eu
cd "$(dirname "$0")"
(cd ../../crates/ftd_c && rt lib > /dev/null)
built=../../crates/ftd_c/out/libftd_c.a
kit=$(dirname "$(rt doc)")/c
system=("$kit/libos_c.a" "$kit/liblibc_c.a")
room=$(mktemp -d)
trap 'rm -r "$room"' EXIT
for program in deposits office; do
    gcc -Wall -Wextra -Werror -O2 -o "$room/$program" $program.c "$built" "${system[@]}"
done
gcc -shared -o "$room/libftd.so" -Wl,--whole-archive "$built" -Wl,--no-whole-archive "${system[@]}"
{ "$room/deposits" && "$room/office"; } | diff wanted -
{ python3 deposits.py "$room/libftd.so" && python3 office.py "$room/libftd.so"; } | diff wanted -
echo "C and Python: as wanted"
