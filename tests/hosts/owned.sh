#!/bin/sh
# owned.sh [SEED [CALLS [ARCHIVE [LEAST [MOST]]]]]: owner's calls against public ones and the reference.
# ARCHIVE is the engine's static library (crates/host/out/libhost.a if not given). CALLS are made, 200,000 if
# not given, on members of ceilings 3 to 1,024, or LEAST to MOST.
set -e
top=$(cd "$(dirname "$0")/../.." && pwd)
seed=${1:-1}
calls=${2:-200000}
archive=${3:-$top/crates/host/out/libhost.a}
least=${4:-3}
most=${5:-1024}
built=$top/target/tests
mkdir -p "$built"
name=$(basename "$archive" .a)
rustc --edition 2021 -C opt-level=3 --crate-name reference --crate-type rlib "$top/reference/src/lib.rs" -o "$built/libreference.rlib"
rustc --edition 2021 -C opt-level=3 --extern "reference=$built/libreference.rlib" -L "$(dirname "$archive")" -l "static=${name#lib}" \
    "$top/tests/hosts/owned.rs" -o "$built/owned"
exec "$built/owned" "$seed" "$calls" "$least" "$most"
