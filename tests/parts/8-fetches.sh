# shellcheck shell=sh disable=SC2154
# Fetches, by the archive of part 4.

holds "tests/fetch_vectors.c compiles" compiles tests/fetch_vectors.c "$archive" -o "$work/fetch_vectors"
run "$work/fetch_vectors" <tests/fetch-vectors.txt
[ "$status" -eq 0 ] || cat "$work/out"
holds "fetches from C: every vector agrees" [ "$status" -eq 0 ]
holds "fetches from C: none is left out" [ "$(tail -n 1 "$work/out")" = "900 of 900 agree" ]
# That the test can fail: another value, another word, another verdict, a line cut short, none at all.
for edit in \
    '/^f7 /s/ OFFSET_X=1 / OFFSET_X=2 /' \
    '/^f2 /s/2A7F477A$/2A7F477B/' \
    '/^f13 /s/verdict=2 /verdict=8 /' \
    '/^f7 /s/ SRC_SEL_W=4$//' \
    '/^f/d'; do
    sed "$edit" tests/fetch-vectors.txt >"$work/changed"
    run "$work/fetch_vectors" <"$work/changed"
    holds "fetches from C: changed vectors are found: $edit" [ "$status" -eq 1 ]
done

# Part 4 holds the header against the table of fields, fetches among them; and that this can fail with one of theirs.
sed 's/LOD_BIAS = bits 27 21/LOD_BIAS = bits 27 22/' crates/formats/specs/Fields.antt >"$work/moved"
header_fields include/zlatomruk.h "$work/moved" >"$work/apart/fields.h"
holds "a fetch's field that is moved in the table is found" found_apart

holds "examples/c/edit_fetch.c compiles" compiles examples/c/edit_fetch.c "$archive" -o "$work/edit_fetch"
run "$work/edit_fetch"
holds "edit_fetch" [ "$status" -eq 0 ]
said=$(sed -n 's/^static const uint32_t texture_pack\[WORDS\] = {\(.*\)};$/\1/p' examples/c/edit_fetch.c | sed 's/0x//g; s/,//g')
holds "edit_fetch: its words are those of examples/texture.pack" [ "$said" = "$(od -An -v -tx4 -w32 --endian=little examples/texture.pack | sed 's/^ //' | tr a-f A-F)" ]
