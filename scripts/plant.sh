#!/bin/sh
# plant.sh [ARCHIVE [SEEDS [REPLAYER]]]: the plant over the static library (crates/host/out/libhost.a where none is given; `rt lib`
# in crates/host makes it): its layout, lints and pages where cargo has them, its tests, the suite from C among them;
# SEEDS (50) runs of each kind, of which none inside the bound may fail and one beyond it must fork; and the records of
# runs and of a fork through the reference's runner, which must refuse none of them and list chains that are prefixes
# of one another, or of the fork part; and the calls of runs of each kind through the proved REPLAYER
# (crates/replayer/out/replayer where none is given; `rt run` in crates/replayer makes it), which must answer and
# leave what the plant has seen.
set -eu
cd "$(dirname "$0")/.."
archive=$(realpath -m "${1:-crates/host/out/libhost.a}")
[ -f "$archive" ] || { echo "no archive $archive: run 'cd crates/host && rt lib'" >&2; exit 2; }
command -v cargo > /dev/null || { echo "cargo is not here: the plant is a Cargo package" >&2; exit 2; }
seeds=${2:-50}
replayer=$(realpath -m "${3:-crates/replayer/out/replayer}")
out=$(mktemp -d)
trap 'rm -rf "$out"' EXIT
export FORGELILAC_ARCHIVE="$archive" CARGO_NET_OFFLINE=true
export CARGO_TARGET_DIR="${CARGO_TARGET_DIR:-$out/cargo}"
manifest="--manifest-path plant/Cargo.toml"

for lint in "fmt --check $manifest" "clippy -q --all-targets --locked $manifest -- -D warnings"; do
    if cargo ${lint%% *} --version > "$out/lint" 2>&1; then
        RUSTFLAGS="" cargo $lint
        echo "plant: cargo $lint has nothing to say"
    else
        echo "plant: cargo ${lint%% *} is not here, not checked"
    fi
done
cargo test -q --locked $manifest > "$out/tests" 2>&1 || { cat "$out/tests" >&2; exit 1; }
echo "plant: its tests passed"
cargo build -q --release --locked $manifest
plant="$CARGO_TARGET_DIR/release/plant"
for kind in lossy partitions crashes equivocation weights guests all beyond; do
    "$plant" seeds --kind $kind --from 1 --count "$seeds" > "$out/said" 2>&1 || { cat "$out/said" >&2; exit 1; }
    grep "^$kind: .* runs, " "$out/said"
done

# ---- records, against the reference

[ -x reference/bin/runner_ref ] || sh reference/build.sh > "$out/built" 2>&1 || { cat "$out/built" >&2; exit 1; }

# Listings of a folder's streams, which the reference must not refuse.
listed() {
    for stream in "$1"/*.stream; do
        reference/bin/runner_ref < "$stream" | tr -d '\r' > "$stream.answers"
        if grep '^refused' "$stream.answers" >&2; then
            echo "the reference refuses a record of $stream" >&2
            exit 1
        fi
        grep '^[0-9]' "$stream.answers" > "$stream.listing" || true
    done
}

# Whether each listing is a prefix of the longest one.
agree() {
    longest=$(wc -l "$1"/*.listing | grep -v ' total$' | sort -n | tail -1 | awk '{ print $2 }')
    for listing in "$1"/*.listing; do
        head -n "$(wc -l < "$listing")" "$longest" | cmp -s - "$listing" || return 1
    done
}
for kind in lossy crashes equivocation weights guests all; do
    for seed in 1 2 3; do
        "$plant" run --kind $kind --seed $seed --records "$out/$kind-$seed" > "$out/said"
        listed "$out/$kind-$seed"
        agree "$out/$kind-$seed" || { echo "$kind, seed $seed: by the reference chains part" >&2; exit 1; }
    done
done
echo "records of 18 runs: the reference accepts all of them, and its chains are prefixes of one another"
"$plant" shrink --kind beyond --seed 5 --records "$out/fork" > "$out/said"
listed "$out/fork"
if agree "$out/fork"; then
    echo "by the reference the records of a fork are none" >&2
    exit 1
fi
echo "records of a fork: the reference accepts all of them, and its chains part"

# ---- calls, against the proved replayer

if [ ! -x "$replayer" ]; then
    echo "plant: no $replayer ('cd crates/replayer && rt run' makes it), the calls of runs were not made again"
    exit 0
fi
runs=0
for kind in lossy partitions crashes equivocation weights guests all beyond; do
    for seed in 1 2 3; do
        "$plant" run --kind $kind --seed $seed --calls "$out/calls" > "$out/said"
        "$replayer" < "$out/calls/calls.list" > "$out/calls/again"
        cmp "$out/calls/again" "$out/calls/calls.told" || { echo "$kind, seed $seed: the replayer tells something else" >&2; exit 1; }
        runs=$((runs + 1))
    done
done
echo "calls of $runs runs: made again by proved code, the same answers and the same words"
# A word less, a byte less, another mark; a seventeenth member, and a sheet that cannot be read: nothing of these is told.
list=$out/calls/calls.list
head -c -4 "$list" > "$out/short"
head -c -1 "$list" > "$out/torn"
{ printf X; tail -c +2 "$list"; } > "$out/other"
{ head -c 4 "$list"; printf '\021'; tail -c +6 "$list"; } > "$out/many"
{ head -c 12 "$list"; printf '\002'; tail -c +14 "$list"; } > "$out/unread"
no_list="these are the words of no list of calls"
while read -r refused why; do
    if "$replayer" < "$out/$refused" > "$out/again" 2> "$out/said"; then
        echo "the replayer makes what is no list, or does not open ($refused)" >&2
        exit 1
    fi
    [ ! -s "$out/again" ] || { echo "the replayer tells something of a list that is not made ($refused)" >&2; exit 1; }
    grep -qx "replayer: $why" "$out/said" || { echo "the replayer does not say what is wrong ($refused)" >&2; exit 1; }
done <<end
short $no_list
torn $no_list
other $no_list
many the list's open is refused with 4
unread the list's open is refused with 1
end
echo "three damaged lists, two that do not open: refused in words, and nothing told"
