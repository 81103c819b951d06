#!/bin/sh
# runner.sh RUNNER [LAST]: records per second of RUNNER and of the reference, both
# optimised, on one stream: the shuffled streams of seeds 1 to LAST (300 if not
# given) that end in a CRLF, one after another. The two take turns; best of 9 each.
[ $# -ge 1 ] || { echo "usage: runner.sh RUNNER [LAST]" >&2; exit 2; }
[ -x "$1" ] && [ -f "$1" ] || { echo "runner.sh: there is no runner $1: make it by 'cd crates/runner && rt run < /dev/null'" >&2; exit 2; }
runner=$(cd "$(dirname "$1")" && pwd)/$(basename "$1")
last=${2:-300}
cd "$(dirname "$0")/../reference" || exit 2
out=$(mktemp -d) || exit 2
trap 'rm -r "$out"' EXIT
for seed in $(seq 1 "$last"); do
    bin/shuffle "$seed" > "$out/one"
    [ "$(tail -c 2 "$out/one" | od -An -tx1)" = " 0d 0a" ] && cat "$out/one"
done > "$out/stream"
bin/runner_ref < "$out/stream" > "$out/expected"
records=$(grep -c '^[or]' "$out/expected")
echo "$records records, $(wc -c < "$out/stream") bytes in, $(wc -c < "$out/expected") bytes out"
for turn in 1 2 3 4 5 6 7 8 9; do
    for program in "$runner" bin/runner_ref; do
        name=$(basename "$program")
        start=$(date +%s%N)
        "$program" < "$out/stream" > "$out/found"
        end=$(date +%s%N)
        cmp -s "$out/found" "$out/expected" || { echo "differs: $program"; exit 1; }
        echo $((end - start)) >> "$out/$name.times"
    done
done
printf '\n| program | best of 9, s | records per second |\n|---|---:|---:|\n'
for program in "$runner" bin/runner_ref; do
    name=$(basename "$program")
    best=$(sort -n "$out/$name.times" | head -1)
    awk -v name="$name" -v ns="$best" -v n="$records" 'BEGIN { printf "| %s | %.3f | %d |\n", name, ns / 1e9, n * 1e9 / ns }'
done
