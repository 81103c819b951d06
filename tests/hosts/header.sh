#!/bin/sh
# header.sh [ARCHIVE]: the header in C and C++, with ARCHIVE (crates/host/out/libhost.a where none is given):
# - it compiles without a warning as C99, freestanding too, C11, C23 and as C++98 to C++20, with gcc and, where
#   it is there, with clang, with and without FORGELILAC_ANSWERS;
# - each mistake of mistakes.c is warned of or refused by the compiler, and the program without one is not;
# - with an archive whose format is another one a host does not link, and the linker names what is missing; with
#   one of another version it does, and forgelilac_version tells.
set -eu
cd "$(dirname "$0")/../.."
archive=${1:-crates/host/out/libhost.a}
[ -f "$archive" ] || { echo "header.sh: there is no archive $archive: make it by 'cd crates/host && rt lib', or name another" >&2; exit 2; }
for tool in gcc g++ objcopy; do
    command -v $tool > /dev/null || { echo "header.sh: $tool is not here, and it is needed" >&2; exit 2; }
done
out=$(mktemp -d)
trap 'rm -rf "$out"' EXIT
strict="-O2 -Wall -Wextra -pedantic"
fail() { echo "header.sh: $*" >&2; exit 1; }

# ---- without a warning

echo '#include "forgelilac.h"' > "$out/header.c"
(echo '#define FORGELILAC_ANSWERS'; cat "$out/header.c") > "$out/answers.c"
forms=0
for form in "gcc -std=c99" "gcc -std=c99 -ffreestanding" "gcc -std=c11" "gcc -std=c2x" \
    "g++ -std=c++98 -x c++" "g++ -std=c++14 -x c++" "g++ -std=c++20 -x c++" \
    "clang -std=c99" "clang -std=c2x" "clang++ -std=c++98 -x c++" "clang++ -std=c++20 -x c++"; do
    command -v "${form%% *}" > /dev/null || { echo "header: ${form%% *} is not here, not tried"; continue; }
    $form $strict -Werror -Iinclude -fsyntax-only "$out/header.c"
    case $form in *c++98*) ;; *) $form $strict -Werror -Iinclude -fsyntax-only "$out/answers.c" ;; esac
    forms=$((forms + 1))
done
echo "header: no warning in $forms forms"

# ---- mistakes

mistakes=0
# mistake NUMBER TEXT: what each compiler says of it has the text in it.
mistake() {
    for form in "gcc -std=c99" "g++ -std=c++17 -x c++"; do
        $form $strict -Iinclude "-DMISTAKE=$1" -c tests/hosts/mistakes.c -o "$out/mistake.o" 2> "$out/said" || true
        grep -q -- "$2" "$out/said" || { cat "$out/said" >&2; fail "mistake $1 passes $form"; }
    done
    mistakes=$((mistakes + 1))
}
for form in "gcc -std=c99" "g++ -std=c++17 -x c++"; do
    $form $strict -Werror -Iinclude -DMISTAKE=0 -c tests/hosts/mistakes.c -o "$out/mistake.o"
done
mistake 1 "ignoring return value.*forgelilac_endorse"
mistake 2 "ignoring return value.*forgelilac_answer_of"
mistake 3 "error: .*forgelilac_answer"
mistake 4 "error: .*forgelilac_answer"
mistake 5 "error: .*forgelilac_answer"
mistake 6 "deprecated: write weights by forgelilac_write_weight"
mistake 7 "forgelilac_propose.*accessing 624 bytes in a region of size 156"
mistake 8 "argument 5 is null but the corresponding size argument 6 value is 14"
mistake 9 "proposed.*uninitialized"
mistake 10 "forgelilac_committee.*68 bytes into a region of size 64"
echo "header: $mistakes mistakes of a host are warned of or refused, in C and in C++"

# ---- versions

cat > "$out/host.c" <<'END'
#include <stdio.h>
#include "forgelilac.h"

static uint32_t state[FORGELILAC_STATE_WORDS], table[FORGELILAC_TABLE_WORDS(3)], sheet[FORGELILAC_SHEET_WORDS];

int main(void) {
    forgelilac_write_setting(sheet, FORGELILAC_CEILING, 3);
    printf("open %u, version %s, format %s\n",
           (unsigned)forgelilac_open(state, FORGELILAC_STATE_WORDS, table, FORGELILAC_TABLE_WORDS(3), 0, sheet,
                                     FORGELILAC_SHEET_WORDS, FORGELILAC_NO_RIGHTS),
           forgelilac_version() == FORGELILAC_VERSION_NUMBER ? "of the header" : "of another header",
           forgelilac_format() == FORGELILAC_FORMAT ? "of the header" : "of another header");
    return 0;
}
END
cat > "$out/reader.c" <<'END'
#include "forgelilac.h"

int main(void) { return forgelilac_refusal_text(1)[0] != 's'; }
END
# link NAME ARCHIVE
link() { gcc -std=c99 $strict -Werror -Iinclude "$out/$1.c" "$2" -o "$out/$1" 2> "$out/said"; }
cp "$archive" "$out/this.a"
link host "$out/this.a" || { cat "$out/said" >&2; fail "a host does not link"; }
[ "$("$out/host")" = "open 0, version of the header, format of the header" ] || fail "the archive is of another version: $("$out/host")"
format=$(sed -n 's/^#define FORGELILAC_FORMAT \([0-9]*\)$/\1/p' include/forgelilac.h)
objcopy --redefine-sym "forgelilac_format_$format=forgelilac_format_$((format + 1))" "$out/this.a" "$out/other.a"
! link host "$out/other.a" || fail "a host links with an archive of another format"
grep -q "undefined reference to .forgelilac_format_$format'" "$out/said" || { cat "$out/said" >&2; fail "the linker names something else"; }
link reader "$out/other.a" || fail "what opens nothing needs the format"
"$out/reader"
sed 's/^\(#define FORGELILAC_VERSION_MINOR\) .*/\1 99/' include/forgelilac.h > "$out/forgelilac.h"
gcc -std=c99 -I"$out" "$out/host.c" "$out/this.a" -o "$out/host"
[ "$("$out/host")" = "open 0, version of another header, format of the header" ] || fail "another version is not told"
echo "header: of format $format, and does not link with an archive of format $((format + 1)): forgelilac_format_$format is missing there"
