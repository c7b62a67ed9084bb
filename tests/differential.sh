#!/usr/bin/env bash
# 20,000 generated inputs give the same answers by the library and by the second program.
set -eu
exec "$(dirname "$0")/differential/run" 20000
