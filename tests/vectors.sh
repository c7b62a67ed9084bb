#!/usr/bin/env bash
# The records and answers that the program case_rules is run on are those of the table of cases.
set -eu
cd "$(dirname "$0")/.."
made=$(mktemp -d)
trap 'rm -rf "$made"' EXIT
python3 tests/vectors/make.py tests/vectors/rules.txt "$made"
for file in stdin stdout; do
    if ! cmp "$made/$file" "crates/case_rules/$file"; then
        echo "crates/case_rules/$file is not what tests/vectors/rules.txt says: run tests/vectors/make.py tests/vectors/rules.txt crates/case_rules"
        exit 1
    fi
done
# no count where one is needed, one beyond the file's bits, one written twice, one that is known without, and a mark within brackets
for row in "read 2 4:9 4:0" "flips 2 0-0 4:1 4:0" "read 2@9 4:9 4:0" "read 2@4 4:9 ! 4:0" "read 1@8 4:0 4:0" "read 2 1*(4:9 ! 4:0)"; do
    echo "$row" >"$made/row"
    if python3 tests/vectors/make.py "$made/row" "$made" 2>"$made/log"; then
        echo "make.py takes the row: $row"
        exit 1
    fi
done
echo "$(tail -n 1 "$made/stdout")"
