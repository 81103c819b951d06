#!/bin/sh
# check.sh [fast | STEP...]: all tests. A line for each step when it is done, with its time; at the end how many
# passed, and status 1 where one failed. What a step says is kept in target/check/STEP.log.
#
#   gate       .ci/run: every proof, every edit that must be refused, every program as two compilers build it
#   archive    the library for hosts, made by `rt lib` in crates/host (a gate takes it away)
#   runner     the runner, made by `rt run` in crates/runner
#   replayer   the program that makes a plant's calls again, made by `rt run` in crates/replayer
#   reference  the reference and its second writing in Python, and the runner against both
#   mutants    wrong references, which the tests must tell
#   streams    the runner against the reference: shuffled streams, damaged ones, input in pieces, members of one run
#   pages      what the pages claim, name and show, and every example on them; the drawings
#   packages   every Cargo package: lints, tests, and formatting where it has a rustfmt.toml
#   tool       the tool, its registers and its page
#   plant      plants of many members, their calls by the replayer, and eighteen wrong engines that they must tell
#   hosts      all that hosts link: header, examples, installation, package, and millions of calls against the reference
#
# `fast` is reference, streams, pages, packages and hosts, in small numbers: some five minutes. It takes the archive
# and the runner that are there, and says which steps go without. Of named steps each is run in whole.
set -u
cd "$(dirname "$0")/.." || exit 2
top=$(pwd)
archive=$top/crates/host/out/libhost.a
runner=$top/crates/runner/out/runner
replayer=$top/crates/replayer/out/replayer
logs=$top/target/check
mkdir -p "$logs"
for tool in cargo gcc python3; do
    command -v $tool > /dev/null || { echo "check.sh: $tool is not here, and it is needed" >&2; exit 2; }
done

gate() { bash .ci/run; }
archive() { (cd crates/host && "${RT:-rt}" lib); }
runner() { (cd crates/runner && "${RT:-rt}" run < /dev/null); }
replayer() { (cd crates/replayer && "${RT:-rt}" run < stdin > /dev/null); }

reference() {
    sh reference/build.sh || return 1
    if [ -x "$runner" ]; then RUNNER=$runner sh reference/check.sh "$seeds"; else sh reference/check.sh "$seeds"; fi
}

mutants() { python3 reference/mutants.py 20; }

streams() {
    [ -x "$runner" ] || { lacks "$runner" "cd crates/runner && rt run < /dev/null"; return 1; }
    sh reference/differ.sh "$runner" "$streams" &&
        python3 reference/damaged.py "$runner" "$damaged" &&
        python3 reference/pieces.py "$runner" &&
        python3 reference/members.py "$runner" "$members"
}

# The pages name the tool and run it.
pages() {
    if [ -f "$archive" ]; then
        FORGELILAC_ARCHIVE=$archive CARGO_NET_OFFLINE=true \
            cargo build -q --release --locked --manifest-path tools/forgelilac/Cargo.toml || return 1
    else
        echo "without $archive: examples in C and Rust are only compiled"
    fi
    if [ -x "$runner" ]; then RUNNER=$runner ARCHIVE=$archive sh scripts/pages.sh; else ARCHIVE=$archive sh scripts/pages.sh; fi
}

# Each Cargo package of the repository. What links the library takes the archive.
packages() (
    [ -f "$archive" ] || { lacks "$archive" "cd crates/host && rt lib"; exit 1; }
    export FORGELILAC_ARCHIVE="$archive" CARGO_NET_OFFLINE=true
    wrong=0
    for manifest in $(find . -name Cargo.toml -not -path '*/target/*' -not -path '*/out/*' | sort); do
        for lint in "fmt --check" "clippy -q --locked --all-targets"; do
            cargo ${lint%% *} --version > /dev/null 2>&1 || { echo "cargo ${lint%% *} is not here, not checked"; continue; }
            [ "${lint%% *}" = clippy ] || [ -f "$(dirname "$manifest")/rustfmt.toml" ] || continue
            echo "$manifest: cargo $lint"
            cargo $lint --manifest-path "$manifest" || wrong=1
        done
        echo "$manifest: cargo test"
        cargo test -q --release --locked --manifest-path "$manifest" || wrong=1
    done
    exit $wrong
)

tool() {
    [ -f "$archive" ] || { lacks "$archive" "cd crates/host && rt lib"; return 1; }
    sh scripts/tool.sh "$archive" "$seeds_of_hosts"
}

plant() {
    [ -f "$archive" ] || { lacks "$archive" "cd crates/host && rt lib"; return 1; }
    [ -x "$replayer" ] || { lacks "$replayer" "cd crates/replayer && rt run < stdin > /dev/null"; return 1; }
    sh scripts/plant.sh "$archive" "$seeds_of_hosts" "$replayer" && python3 plant/tests/wrong_engines.py
}

hosts() {
    [ -f "$archive" ] || { lacks "$archive" "cd crates/host && rt lib"; return 1; }
    sh scripts/hosts.sh "$archive" "$seeds_of_hosts" "$calls"
}

lacks() { echo "there is no $1: make it by '$2'"; }

seeds=200 streams=2500 damaged=30000 members=1000 seeds_of_hosts=20 calls=1000000
steps="gate archive runner replayer reference mutants streams pages packages tool plant hosts"
case ${1:-} in
    fast)
        seeds=2 streams=40 damaged=200 members=20 seeds_of_hosts=2 calls=20000
        steps="reference streams pages packages hosts"
        ;;
    ?*)
        for step in "$@"; do
            case " $steps " in
                *" $step "*) ;;
                *) echo "check.sh: there is no step $step; there are fast, or any of: $steps" >&2; exit 2 ;;
            esac
        done
        steps=$*
        ;;
esac

passed=0 failed="" began=$(date +%s)
for step in $steps; do
    printf '%-10s' "$step"
    from=$(date +%s)
    if $step > "$logs/$step.log" 2>&1; then
        passed=$((passed + 1)) told=ok
    else
        failed="$failed $step" told=FAILED
    fi
    printf '%-7s %5d s  %s\n' "$told" "$(($(date +%s) - from))" "$(grep -v '^ *$' "$logs/$step.log" | tail -n 1 | cut -c1-100)"
done
echo "$passed passed, $(echo $failed | wc -w) failed, $(($(date +%s) - began)) s$([ -z "$failed" ] || echo ":$failed; see target/check/")"
[ -z "$failed" ]
