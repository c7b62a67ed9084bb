#!/usr/bin/env bash
# The program rules_case has the stored records of tests/rules_case/records.py, and answers thousands of them in one run.
set -eu
cd "$(dirname "$0")/.."
work=$(mktemp -d)
trap 'rm -rf "$work"' EXIT
python3 tests/rules_case/records.py "$work"
for file in stdin stdout; do
    if ! cmp "$work/$file" "crates/rules_case/$file"; then
        echo "crates/rules_case/$file is not what records.py says: run tests/rules_case/records.py crates/rules_case"
        exit 1
    fi
done
root=$PWD
. bin/build.bash
find_program rules_case
python3 tests/rules_case/records.py "$work" 300
"$program" <"$work/stdin" | cmp - "$work/stdout"
echo "$(wc -l <"$work/stdout") records"
