#!/usr/bin/env bash
# What README.md and docs/CLERK.md show of the programs is what they print.
set -eu -o pipefail
cd "$(dirname "$0")/.."
. tests/library.bash
need python3 python3
find_program rights
python3 tests/shown.py README.md docs/CLERK.md
