#!/bin/sh
# stored.sh [DIRECTORY]: writes the stdin and stdout of the program `runner` there (crates/runner
# if not given): streams one after another, and what the reference answers. In their order:
#   the edges    first, since they begin with calls before any open
#   the example  of the rules
#   shuffled runs, of margin 3:
#   network 53   18 blocks up to a ceiling of 38; contested members: 22 committees and quorum weights
#                and 4 leaders are other than by round, then author
#   network 286  a commit of 7 blocks, so most anchors are skipped at first
#   puppet 330   42 blocks, up to 6 in a commit; the margin is left out; one of its stretches ends in
#                a round that is not known
#   of margin 4:
#   network 95   26 blocks up to a ceiling of 55, up to 3 in a commit; contested members: 16
#                committees and quorum weights, 2 leaders; 544 answers that another margin would change
#   puppet 38    19 blocks, up to 4 in a commit; 46 advances of a thin round
#   of margin 5:
#   network 101  a commit of 8 blocks
#   puppet 6     28 blocks up to a ceiling of 57; contested members: 22 committees, 2 leaders, 20
#                quorum weights; 67 advances of a thin round
#   of several, each open with its own:
#   network 159  margins 4, 3 and 5; contested members: 20 committees, 4 leaders, 18 quorum weights;
#                its stretches end at the ceiling, in a round that is not known and in a thin one
#   chaos 100    margins 4 and 5; 33 certificates that differ from a held one at their place; 43
#                advances of a thin round, in which two of its stretches end
#   and of margin 5 again:
#   394          31 blocks up to a ceiling of 64; contested members: 14 committees and quorum weights,
#                1 leader; 17 advances of a thin round
# All but the first begin with an open, which starts afresh. The edges and 394 end in the same
# record without its CRLF: it is taken off both and stands once, last of all.
# The answers must begin with those of the edges and the example, which are written by hand.
set -e
out=$(cd "${1:-$(dirname "$0")/../crates/runner}" && pwd)
cd "$(dirname "$0")"
parts=$(mktemp -d)
trap 'rm -r "$parts"' EXIT
last=advance
answer=refused,24

# but_last STREAM: without its last record, which must be $last without a CRLF.
but_last() {
    printf '\r\n%s' "$last" > "$parts/end"
    tail -c "$(wc -c < "$parts/end")" "$1" | cmp - "$parts/end" >&2
    head -c "-${#last}" "$1"
}

for run in "53 network" "286 network" "330 puppet" "95 network" "38 puppet" "101 network" "6 puppet" "159 network" \
        "100 chaos" 394; do
    bin/shuffle $run
done > "$parts/shuffled"
but_last edges/edge.stream > "$parts/stdin"
cat example.stream >> "$parts/stdin"
but_last "$parts/shuffled" >> "$parts/stdin"
printf %s "$last" >> "$parts/stdin"
bin/runner_ref < "$parts/stdin" > "$parts/stdout"

printf '%s\r\n' "$answer" > "$parts/answer"
size=$(wc -c < "$parts/answer")
tail -c "$size" edges/edge.expected | cmp - "$parts/answer"
head -c "-$size" edges/edge.expected > "$parts/expected"
cat example.expected >> "$parts/expected"
bin/runner_ref < "$parts/shuffled" >> "$parts/expected"
cmp "$parts/stdout" "$parts/expected"
cp "$parts/stdin" "$parts/stdout" "$out"
