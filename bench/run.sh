#!/bin/sh
# run.sh [ARCHIVE [quick|full [OTHER]]]: builds the benchmark and prints its tables.
# ARCHIVE is the engine's static library (crates/host/out/libhost.a if not
# given), or `plain` to try the benchmark without it (plain.rs against itself).
# OTHER is another archive, that of before a change: it stands in plain's place,
# and the two take turns in one process. One of before queues, previews, lists of
# what a commit hangs on, guests' calls, what a bond does to the shares or ports lacks
# these, which are then left out. Of one archive the tables of owner's calls come behind them (owner.sh), then
# those of stores and loads (storing.c), and that of the runner (runner.sh) where RUNNER names one, or where there
# is crates/runner/out/runner, and the reference is built.
set -e
top=$(cd "$(dirname "$0")/.." && pwd)
archive=${1:-$top/crates/host/out/libhost.a}
pace=$2
other=$3
built=$top/target/bench
mkdir -p "$built"
command -v rustc > /dev/null || { echo "run.sh: rustc is not here, and it is needed" >&2; exit 2; }
if [ "$archive" = plain ]; then
    set -- --cfg plain
else
    [ -f "$archive" ] || { echo "run.sh: there is no archive $archive: make it by 'cd crates/host && rt lib', or name another" >&2; exit 2; }
    name=$(basename "$archive" .a)
    set -- -L "$(dirname "$archive")" -l "static=${name#lib}"
fi
if [ -n "$other" ]; then
    nm -g --defined-only "$other" | sed -n 's/.* \(forgelilac_[a-z_]*\)$/\1 other_\1/p' > "$built/names"
    objcopy --redefine-syms="$built/names" "$other" "$built/libother.a"
    sed 's/forgelilac_/other_forgelilac_/g' "$top/bench/host.rs" > "$built/other.rs"
    set -- "$@" --cfg other -L "$built" -l static=other
    if ! grep -q '^forgelilac_draw ' "$built/names"; then
        sed -i '/^\/\/ ---- queues/,$d' "$built/other.rs"
        cat >> "$built/other.rs" <<'END'
pub fn enqueue(_: &[u32], _: &mut [u32], _: u32, _: &[u32]) -> u32 {
    unreachable!("this archive has no queues")
}
pub fn draw(_: &mut [u32], _: &mut [u32], _: u32) -> u32 {
    unreachable!("this archive has no queues")
}
END
        set -- "$@" --cfg before_queues
    fi
    if ! grep -q '^forgelilac_preview ' "$built/names"; then
        sed -i '/^\/\/ ---- previews/,$d' "$built/other.rs"
        cat >> "$built/other.rs" <<'END'
pub fn preview(_: &[u32], _: &[u32], _: &mut [u32]) -> u64 {
    unreachable!("this archive has no previews")
}
END
        set -- "$@" --cfg before_previews
    fi
    if ! grep -q '^forgelilac_critical ' "$built/names"; then
        sed -i '/^\/\/ ---- critical/,$d' "$built/other.rs"
        cat >> "$built/other.rs" <<'END'
pub fn critical(_: &[u32], _: &mut [u32], _: &mut [u32]) -> u64 {
    unreachable!("this archive does not tell what a commit hangs on")
}
END
        set -- "$@" --cfg before_critical
    fi
    if ! grep -q '^forgelilac_guest_block ' "$built/names"; then
        sed -i '/^\/\/ ---- guests/,$d' "$built/other.rs"
        cat >> "$built/other.rs" <<'END'
pub fn guest_advance(_: u32, _: &mut [u32], _: &[u32]) -> u32 {
    unreachable!("this archive has no guests' calls")
}
pub fn guest_commit(_: u32, _: &mut [u32], _: &mut [u32]) -> u64 {
    unreachable!("this archive has no guests' calls")
}
pub fn guest_block(_: u32, _: &[u32], _: &[u32], _: u32) -> u64 {
    unreachable!("this archive has no guests' calls")
}
END
        set -- "$@" --cfg before_guests
    fi
    if ! grep -q '^forgelilac_bond_effect ' "$built/names"; then
        sed -i '/^\/\/ ---- effects/,$d' "$built/other.rs"
        cat >> "$built/other.rs" <<'END'
pub fn bond_effect(_: &[u32], _: &[u32], _: u32, _: u32, _: u32, _: &mut [u32]) -> u32 {
    unreachable!("this archive does not tell what a bond does")
}
END
        set -- "$@" --cfg before_effects
    fi
    if ! grep -q '^forgelilac_guest_port_read ' "$built/names"; then
        sed -i '/^\/\/ ---- ports/,$d' "$built/other.rs"
        cat >> "$built/other.rs" <<'END'
pub fn guest_port_read(_: u32, _: &[u32], _: &mut [u32], _: u32) -> u64 {
    unreachable!("this archive has no ports")
}
pub fn guest_port_write(_: u32, _: &[u32], _: &mut [u32], _: u32, _: u8) -> u32 {
    unreachable!("this archive has no ports")
}
END
        set -- "$@" --cfg before_ports
    fi
fi
before='before_queues, before_previews, before_critical, before_guests, before_effects, before_ports'
rustc --edition 2021 -C opt-level=3 -C codegen-units=1 --check-cfg "cfg(plain, other, kept, $before)" "$@" \
    "$top/bench/bench.rs" -o "$built/bench"
TOOLCHAIN=${TOOLCHAIN:-$(rt version 2> /dev/null || echo unknown)} "$built/bench" $pace
[ "$archive" != plain ] && [ -z "$other" ] || exit 0
echo
sh "$top/bench/owner.sh" "$archive" $pace
case $pace in quick) turns=10 seeds=20 ;; *) turns=100 seeds=300 ;; esac
printf '\n## Stores and loads\n\n'
"${CC:-gcc}" -O2 -I"$top/include" "$top/bench/storing.c" "$archive" -o "$built/storing"
"$built/storing" $turns
runner=${RUNNER:-$top/crates/runner/out/runner}
if [ -x "$runner" ] && [ -x "$top/reference/bin/runner_ref" ]; then
    printf '\n## The runner\n\n'
    sh "$top/bench/runner.sh" "$runner" $seeds
else
    echo "run.sh: without the runner: there is no $runner, or no reference/bin/runner_ref (sh reference/build.sh)" >&2
fi
