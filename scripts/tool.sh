#!/bin/sh
# tool.sh [ARCHIVE [SEEDS]]: builds and tests `forgelilac`, the tool (tools/forgelilac), against the engine's static
# library (crates/host/out/libhost.a where none is given): its layout, its lints, its tests; its registers of shuffled
# runs (seeds 1 to SEEDS, 50 where not given) against those of tools/register; which records of damaged streams cannot be read,
# against the reference; a first difference; and the script of its page, where node is there.
set -eu
cd "$(dirname "$0")/.."
archive=$(realpath -m "${1:-crates/host/out/libhost.a}")
seeds=${2:-50}
[ -f "$archive" ] || { echo "no archive $archive: run 'cd crates/host && rt lib'" >&2; exit 2; }
[ -x reference/bin/shuffle ] || sh reference/build.sh
export FORGELILAC_ARCHIVE="$archive" CARGO_NET_OFFLINE=true
cargo="--locked --manifest-path tools/forgelilac/Cargo.toml"
for lint in "fmt --check --manifest-path tools/forgelilac/Cargo.toml" "clippy -q --all-targets $cargo -- -D warnings"; do
    if cargo ${lint%% *} --version > /dev/null 2>&1; then
        cargo $lint
        echo "tool: cargo ${lint%% *} has nothing to say"
    else
        echo "tool: cargo ${lint%% *} is not here, not checked"
    fi
done
cargo test -q $cargo
echo "tool: its tests passed"
cargo build -q --release $cargo
tool=tools/forgelilac/target/release/forgelilac
out=$(mktemp -d)
trap 'rm -r "$out"' EXIT

for seed in $(seq "$seeds"); do
    reference/bin/shuffle "$seed" > "$out/stream"
    # A last record without its end changes nothing, and `chain` would be taken for a part of it.
    python3 -c 'import sys; text = sys.stdin.buffer.read(); sys.stdout.buffer.write(text[:text.rfind(b"\r\n") + 2] + b"chain\r\n")' \
        < "$out/stream" > "$out/listed"
    reference/bin/runner_ref < "$out/listed" > "$out/answers"
    python3 tools/register/register.py --members "$out/listed" "$out/answers" > "$out/register"
    "$tool" register --members --answers "$out/answers" "$out/listed" | cmp - "$out/register"
    "$tool" register --members "$out/stream" | cmp - "$out/register"
    "$tool" diff reference/bin/runner_ref "$out/answers" "$out/listed" > /dev/null
done
echo "tool: registers of $seeds shuffled runs are those of tools/register"

python3 tools/forgelilac/tests/damaged.py "$tool" $((10 * seeds))

# A runner that answers 8 for 11 parts where its answers first have that.
reference/bin/shuffle 1 > "$out/stream"
reference/bin/runner_ref < "$out/stream" > "$out/answers"
sed 's/^refused,11/refused,8/' "$out/answers" > "$out/wrong"
first=$(grep -n '^[or]' "$out/answers" | grep -m1 ':refused,11' | cut -d: -f1)
record=$(head -n "$first" "$out/answers" | grep -c '^[or]')
"$tool" diff "$out/answers" "$out/wrong" "$out/stream" > "$out/told" && exit 1
grep -q "is in record $record (" "$out/told"
grep -q '^A: *refused,11: ' "$out/told"
grep -q '^B: *refused,8: ' "$out/told"
echo "tool: two runners part at record $record"

if command -v node > /dev/null; then
    "$tool" run --page "$out/run.html" docs/run.stream > /dev/null
    node tools/forgelilac/tests/page.mjs "$out/run.html"
    echo "tool: the page's script tells what is pressed, and goes to a round"
else
    echo "tool: node is not here, the page's script was not run"
fi
