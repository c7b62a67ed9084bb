#!/usr/bin/env bash
# The library's calls give the numbers that the paper does, and leave what is lent as it says.
set -eu
cd "$(dirname "$0")/.."
. tests/library.bash
compile tests/calls/calls.c "$work/calls"
"$work/calls"
