#!/usr/bin/env bash
# Every must-fail edit can be applied to its crate.
set -eu
cd "$(dirname "$0")/.."
python3 tests/edits.py
