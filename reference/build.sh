#!/bin/sh
# Builds the package: every program and the unit tests, into bin/; then writes the edge streams into edges/.
set -e
cd "$(dirname "$0")"
command -v cargo > /dev/null || { echo "build.sh: cargo is not here, and it is needed" >&2; exit 2; }
mkdir -p bin edges
built=$(cargo build --release --offline --locked --target-dir target --bins --test tests_ref --message-format json-render-diagnostics)
# The tests' name has a dash and a hash behind it.
printf '%s\n' "$built" | sed -n 's/.*"executable":"\([^"]*\)".*/\1/p' | while read -r program; do
    name=$(basename "$program")
    cp -f "$program" "bin/${name%%-*}"
done
bin/edge_stream edges
