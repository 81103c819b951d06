#!/bin/sh
# pages.sh [PAGE...]: runs every marked example of the pages (docs/*.md where none is given)
# and compares what it says with what the page shows; first, that docs/TRUST.md and docs/map.svg are current,
# that each link and each section that a page, a comment or a script names is there, and each line that a page shows as a change,
# that pages name only crates, files, definitions, laws, functions and edits that are there, that docs/PROMISES.md has
# each sentence of docs/RULES.md, and that the engine, the header and the Rust package have the same functions, the
# same record and one version, that numbers on pages are those of bench/FIGURES.md and of the code, and that the engine's runner ends as docs/SECOND-SUPPLIER.md has it.
#   RUNNER   the runner (crates/runner/out/runner, else reference/bin/runner_ref, built where missing)
#   ARCHIVE  the static library (crates/host/out/libhost.a); without it C and Rust are only compiled, and what
#            calls tools/forgelilac is not run
set -eu
cd "$(dirname "$0")/.."
[ -x reference/bin/runner_ref ] || sh reference/build.sh
python3 tools/trust/trust.py --check
python3 tools/map/map.py --check
python3 scripts/links.py
python3 scripts/diffs.py
python3 scripts/signatures.py
python3 scripts/figures.py
if [ -z "${RUNNER:-}" ]; then
    RUNNER=crates/runner/out/runner
    [ -x "$RUNNER" ] || RUNNER=reference/bin/runner_ref
fi
[ "$RUNNER" = reference/bin/runner_ref ] || python3 reference/ends.py "$RUNNER"
[ $# -gt 0 ] || set -- docs/*.md
exec python3 scripts/pages.py "$(realpath "$RUNNER")" "$(realpath -m "${ARCHIVE:-crates/host/out/libhost.a}")" "$@"
