#!/usr/bin/env bash
# Reading goes over a file once: one function looks at its bytes, and one reader is lent through all of it. Each wrong program of tests/one_pass/wrong.txt is noticed.
set -eu
cd "$(dirname "$0")/.."
export PYTHONDONTWRITEBYTECODE=1
python3 tests/one_pass.py .
python3 tests/one_pass/wrong.py
