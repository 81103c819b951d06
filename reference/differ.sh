#!/bin/sh
# differ.sh RUNNER LAST [FIRST]: compares RUNNER with the reference on the
# example, the edge streams, those of members whose margins differ and the shuffled
# streams of seeds FIRST to LAST (from 1 if not given). Stops at the first
# difference, tells it in words where the tool is built (tools/forgelilac; TOOL
# names another one), and leaves stream and answers; says how much was compared.
# Each stream is given whole; pieces.py gives them in pieces.
[ $# -ge 2 ] || { echo "usage: differ.sh RUNNER LAST [FIRST]" >&2; exit 2; }
[ -x "$1" ] && [ -f "$1" ] || { echo "differ.sh: there is no runner $1: make it by 'cd crates/runner && rt run < /dev/null'" >&2; exit 2; }
runner=$(cd "$(dirname "$1")" && pwd)/$(basename "$1")
first=${3:-1}
last=$2
cd "$(dirname "$0")" || exit 2
[ -x bin/shuffle ] && [ -x bin/runner_ref ] || sh build.sh || exit 2
tool=${TOOL:-../tools/forgelilac/target/release/forgelilac}
out=$(mktemp -d) || exit 2
trap 'rm -r "$out"' EXIT
streams=0 answers=0 input=0 output=0

# differs NAME STREAM EXPECTED: the first difference, and what is left of it.
differs() {
    trap - EXIT
    [ "$2" -ef "$out/stream" ] || cp "$2" "$out/stream"
    [ "$3" -ef "$out/expected" ] || cp "$3" "$out/expected"
    echo "differs: $1"
    if [ -x "$tool" ]; then
        "$tool" diff --names expected,found "$out/expected" "$out/found" "$out/stream"
    else
        cmp "$out/found" "$3"
    fi
    echo "stream, expected and found are left in $out"
    exit 1
}

# compare NAME STREAM EXPECTED
compare() {
    "$runner" < "$2" > "$out/found"
    cmp -s "$out/found" "$3" || differs "$1" "$2" "$3"
    streams=$((streams + 1))
    answers=$((answers + $(grep -c '^[or]' "$3")))
    input=$((input + $(wc -c < "$2")))
    output=$((output + $(wc -c < "$3")))
}

compare example example.stream example.expected
for stream in edges/*.stream margins/*.stream; do
    compare "$stream" "$stream" "${stream%.stream}.expected"
done
for seed in $(seq "$first" "$last"); do
    bin/shuffle "$seed" > "$out/stream"
    bin/runner_ref < "$out/stream" > "$out/expected"
    compare "seed $seed" "$out/stream" "$out/expected"
done
echo "the same: $streams streams, $answers records, $input bytes in, $output bytes out"
