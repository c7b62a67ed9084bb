#!/usr/bin/env bash
# The library carries out the step lists of tests/vectors/steps.txt as the table says.
set -eu -o pipefail
cd "$(dirname "$0")/.."
. tests/library.bash
compile tests/steps/steps.c "$work/steps"
python3 tests/steps/records.py tests/vectors/steps.txt >"$work/records"
"$work/steps" <"$work/records"
