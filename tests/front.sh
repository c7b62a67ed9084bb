#!/usr/bin/env bash
# The program rules (front/): its stored outputs and every message, its objects, the places where files are refused, files and terminals, the same
# bytes as the second program, any input, a library with one thing changed, and every verdict against the proved program. tests/front/*.py say more.
set -eu
cd "$(dirname "$0")/.."
. tests/library.bash
need python3 python3
need script bsdutils
find_program rights_wide
bin/rules version >/dev/null
rustc --edition 2021 tests/second/main.rs -o "$work/second" &
second=$!
gcc -std=c99 -O1 -Wall -Wextra -Werror -Iinclude -c tests/front/changed.c -o "$work/changed.o"
wrapped=()
for call in read read_bits write_back step replay analyse; do
    wrapped+=(-C "link-arg=-Wl,--wrap=rights_$call")
done
rustc --edition 2021 -L "$(dirname "$archive")" -C "link-arg=$work/changed.o" "${wrapped[@]}" front/main.rs -o "$work/changed"
wait "$second"
export RULES_PROGRAM=$PWD/target/front/rules RULES_SEEN=$work/seen PYTHONDONTWRITEBYTECODE=1
failed=0
check() {
    python3 "tests/front/$1.py" "${@:2}" || failed=1
}
check cases
check faults
check around
check messages
check objects
check places
check explained
check verdicts "$program"
check same "$work/second"
# the front that is linked with changed.c is not optimised: there a number that overflows ends the program
RULES_PROGRAM=$work/changed check junk
RULES_PROGRAM=$work/changed check changed
exit "$failed"
