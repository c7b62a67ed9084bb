#!/usr/bin/env bash
# The program prints what tests/vectors/runs.txt says, also where its input comes in pieces.
set -eu -o pipefail
cd "$(dirname "$0")/.."
root=$PWD
. bin/build.bash
find_program rights
narrow=$program
find_program rights_wide
python3 tests/program/main.py "$narrow" "$program"
