#!/bin/sh
# check.sh [LAST [FIRST]]: the tests, the example, the edge streams, the runs of
# members whose margins differ, shares of every weight of totals to 1,000 and as
# many by chance, and seeds FIRST to LAST (1 to 50 if not given), as they are, with
# their accepts in batches, with their proposals drawn from queues, with previews of
# commit, with lists of what a commit hangs on, with guests' calls, with reads of what a
# bond does to the shares and with accesses to ports, the reference against naive.py; that
# weights add up after every commit, and the register of plant owners (tools/register) with
# them; that no bond moves a share further than its bound; that guests get their turn over
# long runs, and that what ports have given is a prefix of the listing. A runner given in
# RUNNER is compared with the reference as well. As many seeds at a time as there are processors.
if [ -n "${RUNNER:-}" ]; then
    if [ -f "$RUNNER" ]; then
        RUNNER=$(cd "$(dirname "$RUNNER")" && pwd)/$(basename "$RUNNER")
    elif ! command -v "${RUNNER%% *}" > /dev/null; then
        echo "check.sh: there is no runner $RUNNER: make it by 'cd crates/runner && rt run < /dev/null'" >&2
        exit 2
    fi
fi
cd "$(dirname "$0")" || exit 2
[ -x bin/tests_ref ] && [ -x bin/runner_ref ] || sh build.sh || exit 2
bin/tests_ref -q || exit 1
status=0
differs() { echo "differs: $1"; status=1; }
for runner in bin/runner_ref "python3 naive.py" $RUNNER; do
    $runner < example.stream | cmp - example.expected || differs example
    for stream in edges/*.stream margins/*.stream; do
        $runner < "$stream" | cmp - "${stream%.stream}.expected" || differs "$stream"
    done
done
python3 margins.py > /dev/null || differs margins
out=$(mktemp -d) || exit 2
trap 'rm -r "$out"' EXIT
python3 shares.py 1000 > "$out/pairs"
bin/shares < "$out/pairs" > "$out/shares"
python3 naive.py shares < "$out/pairs" | cmp - "$out/shares" || differs shares
bin/lookups | cmp - ../crates/lookups/stdout || differs lookups
bin/fair || differs fair
bin/received || differs received

# One part of the seeds: from the given one on as many further as there are parts. Tells what differs, and notes
# each seed when it is done.
seeds() {
    at=$out/$1
    mkdir "$at"
    for seed in $(seq "$1" "$parts" "$last"); do
        bin/shuffle "$seed" > "$at/stream"
        bin/runner_ref < "$at/stream" > "$at/expected"
        bin/ledger < "$at/stream" > "$at/ledger" || { cat "$at/ledger"; differs "weights of seed $seed"; }
        for runner in "python3 naive.py" $RUNNER; do
            $runner < "$at/stream" | cmp - "$at/expected" || differs "seed $seed"
        done
        for name in batches queues previews criticals rights effects serial; do
            python3 "$name.py" "$seed" > "$at/stream"
            "bin/$name" < "$at/stream" > "$at/expected" || differs "bin/$name of seed $seed"
            python3 naive.py "$name" < "$at/stream" | cmp - "$at/expected" || differs "$name of seed $seed"
        done
        echo "$seed" >> "$at/done"
    done
}
first=${2:-1}
last=${1:-50}
parts=$(nproc)
for part in $(seq "$first" $((first + parts - 1))); do
    seeds "$part" > "$out/told-$part" 2>&1 &
done
wait
cat "$out"/told-*
cat "$out"/told-* | grep -q . && status=1
[ "$(cat "$out"/*/done | wc -l)" = $((last - first + 1)) ] || differs "not every seed was run"
for runner in bin/runner_ref $RUNNER; do
    python3 owners.py "$runner" bin/committees $((last - first + 1)) "$first" || differs register
done
[ $status = 0 ] && echo all the same
exit $status
