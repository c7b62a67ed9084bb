#!/usr/bin/env bash
# The second program's own tests, and its texts under examples/; and the table of cases, to which it gives the answers that stand there.
set -eu -o pipefail
cd "$(dirname "$0")/.."
. tests/tools.bash
need rustc rustc
work=$(mktemp -d)
trap 'rm -rf "$work"' EXIT
rustc --edition 2021 -O tests/second/main.rs -o "$work/second"
"$work/second" selftest
python3 tests/vectors/make.py tests/vectors/rules.txt "$work"
"$work/second" records <"$work/stdin" | diff "$work/stdout" -
echo "the table's $(tail -n 1 "$work/stdout")"
