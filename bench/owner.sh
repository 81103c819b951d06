#!/bin/sh
# owner.sh [ARCHIVE [quick] [CEILING..]]: builds the benchmark of owner's calls, and prints its tables.
# ARCHIVE is the engine's static library (crates/host/out/libhost.a if not given). Of ceilings 64, 256 and
# 1,024 where none is given, and then of whole runs.
set -e
top=$(cd "$(dirname "$0")/.." && pwd)
archive=${1:-$top/crates/host/out/libhost.a}
[ $# -eq 0 ] || shift
built=$top/target/bench
mkdir -p "$built"
name=$(basename "$archive" .a)
rustc --edition 2021 -C opt-level=3 -C codegen-units=1 --cfg kept --check-cfg 'cfg(kept)' \
    -L "$(dirname "$archive")" -l "static=${name#lib}" "$top/bench/owner.rs" -o "$built/owner"
exec "$built/owner" "$@"
