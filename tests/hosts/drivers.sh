#!/bin/sh
# drivers.sh [ARCHIVE]: what drivers of serial ports find at a guest's port (drivers.c), with ARCHIVE
# (crates/host/out/libhost.a where none is given). It must be the table of docs/GUESTS.md, "Which drivers work".
set -eu
cd "$(dirname "$0")/../.."
archive=${1:-crates/host/out/libhost.a}
[ -f "$archive" ] || { echo "drivers.sh: there is no archive $archive: make it by 'cd crates/host && rt lib', or name another" >&2; exit 2; }
command -v gcc > /dev/null || { echo "drivers.sh: gcc is not here, and it is needed" >&2; exit 2; }
out=$(mktemp -d)
trap 'rm -rf "$out"' EXIT
gcc -std=c99 -O2 -Wall -Wextra -Werror -pedantic -Iinclude tests/hosts/drivers.c "$archive" -o "$out/drivers"
"$out/drivers" > "$out/found"
sed -n '/^| driver | finds the port /,/^$/p' docs/GUESTS.md | grep '^|' > "$out/shown"
diff -u "$out/shown" "$out/found" || { echo "drivers.sh: docs/GUESTS.md shows another table" >&2; exit 1; }
echo "drivers: $(($(wc -l < "$out/found") - 2)) find what docs/GUESTS.md says"
