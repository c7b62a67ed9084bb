#!/usr/bin/env bash
# The analyser's crates know what rules allow by laws only: no proof of theirs unfolds a definition of the monitor's crates.
set -eu
cd "$(dirname "$0")/.."
python3 tests/laws.py
