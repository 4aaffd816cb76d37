# shellcheck shell=sh disable=SC2154
# The archive, the header and the programs in C.
. tests/header_fields.sh
# Asked for twice at once, it is built once.
tools/archive 2>"$work/first" &
holds "the archive is built" tools/archive 2>"$work/second"
holds "whoever asks for it" wait $!
holds "by one of them" [ "$(cat "$work/first" "$work/second" | grep -c proving)" -le 1 ]
cat "$work/first" "$work/second"
archive=target/libzlatomruk.a
strict="-std=c99 -Wall -Wextra -Wconversion -pedantic -Werror -Iinclude"

compiles() {
    # shellcheck disable=SC2086 # words
    cc $strict "$@"
}

holds "the header compiles as C" compiles -fsyntax-only -x c include/zlatomruk.h
if command -v c++ >/dev/null; then
    holds "the header compiles as C++" c++ -Wall -Wextra -pedantic -Werror -fsyntax-only -x c++ include/zlatomruk.h
fi
for program in judge_copy codec_roundtrip judge_files; do
    holds "examples/c/$program.c compiles" compiles "examples/c/$program.c" "$archive" -o "$work/$program"
done
holds "judge_copy" sh -c "'$work/judge_copy' >/dev/null"
holds "codec_roundtrip" sh -c "'$work/codec_roundtrip' >/dev/null"
for report in examples/*.report; do
    name=${report%.report}
    "$work/judge_files" "$name.card" "$name.pack" >"$work/out" 2>/dev/null
    status=$?
    case $(tail -n 1 "$report") in release=yes) wanted=0 says=released ;; *) wanted=1 says="not released" ;; esac
    said=$(sed -n 's/^verdict=\(.*\)/verdict \1/p; s/^place=\(.*\)/, place \1/p; s/^slot=\(.*\)/, slot \1/p' "$report" | tr -d '\n')
    holds "judge_files from C: $name" [ "$status $(cat "$work/out")" = "$wanted $said: $says" ]
done

# The header against the table of fields and the archive; and that the test can fail.
header_fields include/zlatomruk.h crates/formats/specs/Fields.antt >"$work/fields.h"
holds "the header's test compiles" cc -std=c99 -D_POSIX_C_SOURCE=200809L -Wall -Wextra -Werror -Iinclude -I"$work" tests/header.c $archive -lpthread -o "$work/header"
holds "the header agrees with the sources" "$work/header"
sed 's/DST_GPR = bits 27 21/DST_GPR = bits 27 22/' crates/formats/specs/Fields.antt >"$work/moved"
mkdir "$work/apart"
header_fields include/zlatomruk.h "$work/moved" >"$work/apart/fields.h"
found_apart() {
    cc -std=c99 -D_POSIX_C_SOURCE=200809L -Iinclude -I"$work/apart" tests/header.c $archive -lpthread -o "$work/header_apart" &&
        ! "$work/header_apart" >/dev/null
}
holds "a field that is moved in the table is found" found_apart

# What the archive defines is what the header declares; it needs memset and nothing else.
nm "$archive" | awk '$2 == "T" { print $3 }' | sort -u >"$work/defined"
sed -n 's/^uint[0-9]*_t \(zlatomruk_[a-z_]*\)(.*/\1/p' include/zlatomruk.h | sort >"$work/declared"
holds "the archive has what the header declares" cmp -s "$work/defined" "$work/declared"
holds "memset is all that it needs" [ "$(nm "$archive" | awk '$1 == "U" { print $2 }' | sort -u)" = memset ]

# The numbers are those of docs/USING.md, and the version that of VERSION.
sed -n 's/^ *ZLATOMRUK_VERDICT_[A-Z_]* = \([0-9]*\).*/\1/p' include/zlatomruk.h >"$work/numbers"
holds "the header has the numbers 0 to 22" [ "$(paste -sd ' ' "$work/numbers")" = "$(seq -s ' ' 0 22)" ]
holds "the header's version" grep -qx "#define ZLATOMRUK_VERSION \"$(cat VERSION)\"" include/zlatomruk.h
holds "the header's version as a number" grep -q "^#define ZLATOMRUK_VERSION_NUMBER $(awk -F . '{ print 10000 * $1 + 100 * $2 + $3 }' VERSION) " include/zlatomruk.h

# bench/archives times an archive beside itself, and says where it can't.
cat examples/copy.card examples/copy.pack >"$work/copy.in"
answers "bench/archives: the archive twice" 0 bench/archives "$work/copy.in" $archive $archive
holds "bench/archives: both times of both" [ "$(grep -c '^[12]: .* us, .* of the first$' "$work/out")" -eq 4 ]
answers "bench/archives: no archive" 2 bench/archives "$work/copy.in"
answers "bench/archives: an input without a card" 2 bench/archives examples/copy.pack $archive
