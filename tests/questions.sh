#!/usr/bin/env bash
# The library answers the stored questions of tests/vectors/questions.txt as they were worked out by hand.
set -eu -o pipefail
cd "$(dirname "$0")/.."
. tests/library.bash
rustc --edition 2021 -O tests/questions/main.rs -L "$(dirname "$archive")" -l static=rights_c -o "$work/questions"
"$work/questions"
