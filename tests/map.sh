#!/usr/bin/env bash
# Every name, edit and case that docs/MAP.md cites is there, no place stands twice, and every must-fail edit and every claim is cited. Every claim has
# a proof term, what docs/PROVED.md calls a claim is one, and each of the paper's marked cases has a row in the table of crates/p_cases.
set -eu
cd "$(dirname "$0")/.."
python3 tests/map.py
