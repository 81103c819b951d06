#!/bin/sh
# hosts.sh [ARCHIVE [SEEDS [CALLS [STORES [KILLS]]]]]: builds and runs everything that hosts link, against the
# static library (crates/host/out/libhost.a where none is given; `rt lib` in crates/host makes it):
# the header in every form of C and C++, what a compiler says of a host's mistakes, and that it does not link with
# an archive of another format (tests/hosts/header.sh); `make install`, `make uninstall`, `make dist` made twice
# alike, and the examples in C and C++ through pkg-config, four members with messages and stores among them, a host
# that owns its words, one that links the shared library, and an old guest's serial port, whose listing must be the reference's; what drivers
# of serial ports find there (tests/hosts/drivers.sh);
# the stack that calls need, the host's own and guests'; the Rust package: its
# layout and its lints where cargo has them, tests and doctests, users of editions 2021 and 2024, one without
# the standard library, one documented without an archive, and the archive found in each of the four ways, the
# last of which proves nothing unless it is told to, and refused in the first three where it is of another format;
# a replay of shuffled runs (seeds 1 to SEEDS, 20 where not
# given) that must answer as the reference does; chains, and which words calls change; the register
# of plant owners against reads of committees; STORES (100) members stored, loaded, torn and signed against the pages;
# a host that is killed KILLS (200) times and goes on from its store; and CALLS (1,000,000) calls on grown and on damaged
# states, 50,000 certificates in batches, 50,000 calls on queues, 20,000 previews, 20,000 lists of
# what a commit hangs on, 50,000 calls of guests, 500,000 reads of what a bond does to the shares and
# 200,000 accesses to serial ports, compared with the reference word by word, and 3,000 ledgers of weights;
# of these as much less as CALLS are fewer; and 200,000 owner's calls, compared with the host's own and with the
# reference, or as much less (tests/hosts/owned.sh makes more).
set -eu
cd "$(dirname "$0")/.."
top=$(pwd)
archive=$(realpath -m "${1:-crates/host/out/libhost.a}")
[ -f "$archive" ] || { echo "hosts.sh: there is no archive $archive: make it by 'cd crates/host && rt lib', or name another" >&2; exit 2; }
for tool in gcc g++ make pkg-config objcopy cargo rustc; do
    command -v $tool > /dev/null || { echo "hosts.sh: $tool is not here, and it is needed" >&2; exit 2; }
done
[ -x reference/bin/runner_ref ] || sh reference/build.sh
out=$(mktemp -d)
trap 'rm -rf "$out"' EXIT
unset FORGELILAC_ARCHIVE FORGELILAC_BUILD DOCS_RS

# ---- the header

strict="-Wall -Wextra -Werror -pedantic"
sh tests/hosts/header.sh "$archive"

# ---- installed, and found by pkg-config

make -s install ARCHIVE="$archive" BUILD="$out/build" PREFIX="$out/prefix" | sed "s|$out/||g"
make -s install ARCHIVE="$archive" BUILD="$out/build" PREFIX="$out/with" SHARED=1 > "$out/said"
export PKG_CONFIG_PATH="$out/prefix/lib/pkgconfig"
[ "$(pkg-config --modversion forgelilac)" = "$(sed -n 's/^#define FORGELILAC_VERSION "\(.*\)"$/\1/p' include/forgelilac.h)" ]
flags=$(pkg-config --cflags forgelilac)
libs=$(pkg-config --libs forgelilac)
gcc -std=c11 -O2 $strict $flags examples/stack.c $libs -lpthread -o "$out/stack"

# Runs a program and compares what it prints: as_expected EXAMPLE COMMAND.
as_expected() {
    expected=examples/$1.expected
    shift
    "$@" > "$out/output"
    diff -u "$expected" "$out/output"
}
for example in host serial plant owner; do
    gcc -std=c99 -O2 $strict $flags examples/$example.c $libs -o "$out/$example-c"
    g++ -std=c++14 -O2 $strict $flags -x c++ examples/$example.c -x none $libs -o "$out/$example-c++"
    for program in $example-c $example-c++; do
        as_expected $example "$out/$program"
        echo "$program: as examples/$example.expected"
    done
done
"$out/stack"
gcc -std=c99 -O2 $strict $flags examples/host.c -L"$out/with/lib" -lforgelilac -Wl,-rpath,"$out/with/lib" -o "$out/shared"
readelf -d "$out/shared" | grep -q 'NEEDED.*libforgelilac.so.0'
as_expected host "$out/shared"
echo "host, by the shared library: as examples/host.expected"
sh tests/hosts/drivers.sh "$archive"

# ---- what is handed on: two tarballs alike, one unpacked and used, and an installation that goes again

for name in one other; do
    make -s dist ARCHIVE="$archive" BUILD="$out/$name" DIST="$out/$name.tar.gz" > "$out/said"
    sleep 1
done
cmp "$out/one.tar.gz" "$out/other.tar.gz"
mkdir "$out/unpacked"
tar -xzf "$out/one.tar.gz" -C "$out/unpacked" --strip-components=1
(cd "$out/unpacked" && sha256sum -c --quiet SHA256SUMS)
gcc -std=c99 -O2 $strict -I"$out/unpacked/include" examples/host.c "$out/unpacked/lib/libforgelilac.a" -o "$out/handed"
as_expected host "$out/handed"
echo "make dist: two tarballs are the same, the sums are right, and a host is built of one"
make -s install ARCHIVE="$archive" BUILD="$out/build" PREFIX="$out/gone" SHARED=1 > "$out/said"
make -s uninstall PREFIX="$out/gone" > "$out/said"
[ -z "$(find "$out/gone" -type f -o -type l)" ]
echo "make uninstall: leaves no file"

# ---- the Rust package

export CARGO_TARGET_DIR="$out/cargo" CARGO_NET_OFFLINE=true RUSTFLAGS="-D warnings" RUSTDOCFLAGS="-D warnings"
package=bindings/rust

# A new crate that uses the package: user NAME EDITION SOURCE [OPTION].
user() {
    cargo new -q --vcs none --name "$1" --edition "$2" "$out/$1"
    cp "$3" "$out/$1/src/main.rs"
    (cd "$out/$1" && cargo add -q ${4:-} --path "$top/$package")
}
user of_2021 2021 $package/examples/host.rs
as_expected host env FORGELILAC_ARCHIVE="$archive" cargo run -q --release --manifest-path "$out/of_2021/Cargo.toml"
echo "user of edition 2021, archive by FORGELILAC_ARCHIVE: as examples/host.expected"
user of_2024 2024 $package/examples/host.rs
as_expected host cargo run -q --release --manifest-path "$out/of_2024/Cargo.toml"
echo "user of edition 2024, archive by pkg-config: as examples/host.expected"
user bare 2024 examples/bare.rs --no-default-features
printf '[profile.release]\npanic = "abort"\n' >> "$out/bare/Cargo.toml"
cargo run -q --release --manifest-path "$out/bare/Cargo.toml"
echo "user without the standard library: its preview, what its commit hangs on, what a bond does, its chain, its guests and a port are as they must be"

# The package in a tree of its own, first with an archive in it, then with an rt that makes one.
unset PKG_CONFIG_PATH
export PKG_CONFIG_LIBDIR="$out/none"
mkdir -p "$out/tree/bindings" "$out/tree/crates/host/out" "$out/bin"
cp -r $package "$out/tree/bindings/rust"
cp "$archive" "$out/tree/crates/host/out/libhost.a"
cargo test -q --locked --manifest-path "$out/tree/$package/Cargo.toml"
cargo doc -q --locked --manifest-path "$out/tree/$package/Cargo.toml"
echo "tests and doctests of the package, archive of the tree: passed"
as_expected ten_blocks cargo run -q --locked --example ten_blocks --manifest-path "$out/tree/$package/Cargo.toml"
echo "a host of three members and ten blocks: as examples/ten_blocks.expected"
as_expected ready cargo run -q --locked --example ready --manifest-path "$out/tree/$package/Cargo.toml"
echo "a host of four members by the ready loop: as examples/ready.expected"
for lint in "fmt --check" "clippy -q --all-targets --locked"; do
    if cargo ${lint%% *} --version > "$out/lint" 2>&1; then
        cargo $lint --manifest-path "$out/tree/$package/Cargo.toml"
        echo "package: cargo $lint has nothing to say"
    else
        echo "package: cargo ${lint%% *} is not here, not checked"
    fi
done
# An archive of another format is refused in each way to it, and so is what is none.
objcopy --redefine-sym forgelilac_format_3=forgelilac_format_4 "$archive" "$out/other.a"
refuses() {
    text=$1
    shift
    if env "$@" cargo build -q --locked --manifest-path "$out/tree/$package/Cargo.toml" 2> "$out/said"; then
        echo "the package takes it: $*" >&2
        exit 1
    fi
    grep -q "$text" "$out/said" || { cat "$out/said" >&2; exit 1; }
}
other="it has no forgelilac_format_3, so it is of another format"
refuses "$other" FORGELILAC_ARCHIVE="$out/other.a"
make -s install ARCHIVE="$out/other.a" BUILD="$out/build" PREFIX="$out/another" > "$out/said"
refuses "$other" -u PKG_CONFIG_LIBDIR PKG_CONFIG_PATH="$out/another/lib/pkgconfig"
mv "$out/tree/crates/host/out/libhost.a" "$out/ready.a"
cp "$out/other.a" "$out/tree/crates/host/out/libhost.a"
refuses "$other" LANG=C
refuses "is no archive with an index" FORGELILAC_ARCHIVE="$top/README.md"
rm "$out/tree/crates/host/out/libhost.a"
echo "package: an archive of another format is refused in each of three ways to it"
printf '#!/bin/sh\n[ "$*" = lib ] && cp %s out/libhost.a\n' "$out/ready.a" > "$out/bin/rt"
chmod +x "$out/bin/rt"
without="cargo build -q --locked --no-default-features --manifest-path $out/tree/$package/Cargo.toml"
if PATH="$out/bin:$PATH" $without 2> "$out/said"; then
    echo "the package was built without an archive" >&2
    exit 1
fi
grep -q "FORGELILAC_BUILD=1" "$out/said"
[ ! -e "$out/tree/crates/host/out/libhost.a" ]
for features in --all-features --no-default-features; do
    DOCS_RS=1 cargo doc -q --locked $features --manifest-path "$out/tree/$package/Cargo.toml"
done
echo "package without an archive: documented, not built, and the message says what to do"
PATH="$out/bin:$PATH" FORGELILAC_BUILD=1 $without
cmp -s "$out/ready.a" "$out/tree/crates/host/out/libhost.a"
echo "package without alloc, archive by rt lib as FORGELILAC_BUILD asks: built"

# ---- against the reference

unset RUSTFLAGS RUSTDOCFLAGS
sh tests/hosts/package.sh "$archive" "${2:-20}"
reference/bin/runner_ref < examples/serial.stream | grep '^[0-9]' | diff -u - examples/serial.expected
echo "examples/serial.expected: the reference's listing of examples/serial.stream"
python3 tests/hosts/storing.py "$archive" "${4:-100}"
gcc -std=c11 -O2 $strict -Iinclude tests/hosts/powerloss.c "$archive" -o "$out/powerloss"
mkdir "$out/stored"
"$out/powerloss" "$out/stored" "${5:-200}"
sh tests/hosts/run.sh 1 "${3:-1000000}" "$archive"
sh tests/hosts/owned.sh 1 $((${3:-1000000} / 5)) "$archive"
