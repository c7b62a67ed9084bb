#!/usr/bin/env bash
# No two files of the crates share more runs of 7 lines of the same shape than tests/repeats.txt lists.
set -eu
cd "$(dirname "$0")/.."
python3 tests/repeats.py
