#!/bin/sh
# package.sh [ARCHIVE [SEEDS [STATES [CALLS [OWNERS]]]]]: header and Rust package against the reference.
# ARCHIVE is the engine's static library (crates/host/out/libhost.a if not given). Runs a replay
# of shuffled runs (seeds 1 to SEEDS, 20 if not given), the chains of STATES states (2,000),
# which words CALLS calls (100,000) change, and the register of plant owners (tools/register) against
# the package's reads of committees, seeds 1 to OWNERS (100).
set -eu
top=$(cd "$(dirname "$0")/../.." && pwd)
archive=$(realpath -m "${1:-$top/crates/host/out/libhost.a}")
[ -f "$archive" ] || { echo "package.sh: there is no archive $archive: make it by 'cd crates/host && rt lib', or name another" >&2; exit 2; }
for tool in gcc ar rustc python3; do
    command -v $tool > /dev/null || { echo "package.sh: $tool is not here, and it is needed" >&2; exit 2; }
done
seeds=${2:-20}
states=${3:-2000}
calls=${4:-100000}
owners=${5:-100}
cd "$top"
[ -x reference/bin/shuffle ] || sh reference/build.sh
out=$(mktemp -d)
trap 'rm -rf "$out"' EXIT
cp "$archive" "$out/libforgelilac.a"
rust="rustc --edition 2021 -O -D warnings -L $out"
$rust --crate-name forgelilac --crate-type rlib --cfg 'feature="alloc"' -l static=forgelilac \
    bindings/rust/src/lib.rs -o "$out/libforgelilac.rlib"
$rust --crate-name reference --crate-type rlib reference/src/lib.rs -o "$out/libreference.rlib"
gcc -std=c99 -O2 -Wall -Wextra -Werror -pedantic -Iinclude -c tests/hosts/header.c -o "$out/header.o"
ar rcs "$out/libheader.a" "$out/header.o"
program="$rust --extern forgelilac=$out/libforgelilac.rlib --extern reference=$out/libreference.rlib"
$program tests/hosts/replay.rs -o "$out/replay"
$program tests/hosts/chains.rs -l static=header -l static=forgelilac -o "$out/chains"
$program tests/hosts/touched.rs -o "$out/touched"
$program tests/hosts/committees.rs -o "$out/committees"

mkdir "$out/streams"
for seed in $(seq "$seeds"); do reference/bin/shuffle "$seed" > "$out/streams/$seed"; done
"$out/replay" reference/example.stream reference/edges/*.stream "$out"/streams/*
"$out/chains" 1 "$states"
"$out/touched" 1 "$calls"
python3 reference/owners.py reference/bin/runner_ref "$out/committees" "$owners"
