#!/bin/sh
# run.sh [SEED [CALLS [ARCHIVE [TOTAL [CERTIFICATES [QUEUED [PREVIEWED [CRITICALS [GUESTED [LEDGERS [EFFECTS [PORTED]]]]]]]]]]]]:
# host functions against the reference.
# ARCHIVE is the engine's static library (crates/host/out/libhost.a if not
# given), or `plain` for bench/plain.rs. Shares are read of every weight of every
# total up to TOTAL, 2,000 if not given. CERTIFICATES are handed over in batches,
# 50,000 if not given, QUEUED calls are made on queues, 50,000 if not given,
# PREVIEWED previews of commit are asked for, 20,000 if not given, CRITICALS
# lists of what a commit hangs on, 20,000 if not given, GUESTED calls are made by
# guests, 50,000 if not given, LEDGERS ledgers of weights are kept, 3,000 if not
# given, EFFECTS reads are made of what a bond does to the shares, 500,000 if not
# given, and PORTED accesses to ports, 200,000 if not given. With fewer CALLS than
# 1,000,000 those that are not given are as much fewer, down to so many that each kind
# comes up.
set -e
top=$(cd "$(dirname "$0")/../.." && pwd)
seed=${1:-1}
calls=${2:-1000000}
archive=${3:-$top/crates/host/out/libhost.a}
part=$calls
[ "$part" -le 1000000 ] || part=1000000
# of_1000 COUNT LEAST: so many of a thousand CALLS, and so many at least.
of_1000() {
    count=$((part * $1 / 1000))
    echo $((count > $2 ? count : $2))
}
most=${4:-$((part < 1000000 ? 200 : 2000))}
certificates=${5:-$(of_1000 50 1000)}
queued=${6:-$(of_1000 50 1000)}
previewed=${7:-$(of_1000 20 400)}
criticals=${8:-$(of_1000 20 400)}
guested=${9:-$(of_1000 50 10000)}
ledgers=${10:-$(of_1000 3 200)}
effects=${11:-$(of_1000 500 20000)}
ported=${12:-$(of_1000 200 40000)}
command -v rustc > /dev/null || { echo "run.sh: rustc is not here, and it is needed" >&2; exit 2; }
if [ "$archive" = plain ]; then
    set -- --cfg plain
else
    [ -f "$archive" ] || { echo "run.sh: there is no archive $archive: make it by 'cd crates/host && rt lib', or name another" >&2; exit 2; }
    name=$(basename "$archive" .a)
    set -- -L "$(dirname "$archive")" -l "static=${name#lib}"
fi
built=$top/target/tests
mkdir -p "$built"
rustc --edition 2021 -C opt-level=3 --crate-name reference --crate-type rlib "$top/reference/src/lib.rs" -o "$built/libreference.rlib"
rustc --edition 2021 -C opt-level=3 --check-cfg 'cfg(plain, kept)' --extern "reference=$built/libreference.rlib" "$@" \
    "$top/tests/hosts/differential.rs" -o "$built/differential"
exec "$built/differential" "$seed" "$calls" "$most" "$certificates" "$queued" "$previewed" "$criticals" "$guested" "$ledgers" "$effects" "$ported"
