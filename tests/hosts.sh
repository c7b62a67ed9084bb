#!/usr/bin/env bash
# The example hosts, in C and in Rust, print what examples/host.out says, which is worked out from the paper. The rows of a leak, which any that
# replay may be, stand on lines of their own that begin with a blank, and are left out.
set -eu -o pipefail
cd "$(dirname "$0")/.."
. tests/library.bash
compile examples/host.c "$work/host_c"
rustc --edition 2021 -O -D warnings -L "$(dirname "$archive")" examples/host.rs -o "$work/host_rs"
for host in host_c host_rs; do
    "$work/$host" examples/counter.rules >"$work/$host.out"
    grep -v '^ ' "$work/$host.out" | diff - examples/host.out
done
cmp "$work/host_c.out" "$work/host_rs.out"
echo "two hosts, $(wc -l <examples/host.out) lines each"
