/* Edits a texture fetch: takes the one of examples/texture.pack apart, prints every field by name, moves its offset one texel to the left, puts it
 * together again and judges the pack. Exits 0 exactly if every answer and every word is as expected. */
#include <stdio.h>
#include <string.h>

#include "zlatomruk.h"

/* Control flow is TEX, then EXPORT_DONE, which is the end; the clause of one fetch begins at word 4. */
enum { FETCH = 4, WORDS = 8 };

static const uint32_t texture_pack[WORDS] = {0x00000002, 0x80800000, 0xC0008000, 0x94200688, 0x00000010, 0xF00D1001, 0x68800000, 0x00000000};

/* A texture fetch's fields, by index. */
static const char *const names[ZLATOMRUK_VALUES] = {
    "form", "TEX_INST", "BC_FRAC_MODE", "RESERVED0_6", "FETCH_WHOLE_QUAD", "RESOURCE_ID", "SRC_GPR", "SRC_REL", "ALT_CONST", "RESERVED0_25",
    "DST_GPR", "DST_REL", "RESERVED1_8", "DST_SEL_X", "DST_SEL_Y", "DST_SEL_Z", "DST_SEL_W", "LOD_BIAS", "COORD_TYPE_X", "COORD_TYPE_Y",
    "COORD_TYPE_Z", "COORD_TYPE_W", "OFFSET_X", "OFFSET_Y", "OFFSET_Z", "SAMPLER_ID", "SRC_SEL_X", "SRC_SEL_Y", "SRC_SEL_Z", "SRC_SEL_W",
};

static int failures = 0;

static void expect(int holds, const char *what) {
    if (!holds) {
        printf("not as expected: %s\n", what);
        failures++;
    }
}

static void print(const uint32_t *values) {
    printf("words %d to %d:", FETCH, FETCH + 3);
    for (size_t i = 0; i < ZLATOMRUK_VALUES && names[i] != NULL; i++) {
        printf(" %s=%u", names[i], values[i]);
    }
    printf("\n");
}

/* The verdict's number on a pack, by the card of examples/texture.card. */
static uint32_t judge(const uint32_t *pack) {
    static const char card[] = "kind=ps\nbuild=production\ngprs=2\ntemps=0\nconsts=0\nstack=0\nquads=4\n";
    return zlatomruk_number(zlatomruk_judge((const uint8_t *)card, sizeof card - 1, pack, WORDS));
}

/* How many words two packs differ in. */
static int differences(const uint32_t *one, const uint32_t *other) {
    int count = 0;
    for (size_t i = 0; i < WORDS; i++) {
        if (one[i] != other[i]) {
            printf("word %zu: %08X, was %08X\n", i, one[i], other[i]);
            count++;
        }
    }
    return count;
}

int main(void) {
    uint32_t values[ZLATOMRUK_VALUES] = {0};
    uint32_t pack[WORDS], before[WORDS];

    /* The opener's CF_INST is the kind of its fetches. */
    expect(zlatomruk_decode(texture_pack, WORDS, 0, ZLATOMRUK_CONTROL_FLOW, values, ZLATOMRUK_VALUES) == 0, "the opener is decoded");
    expect(values[0] == ZLATOMRUK_CF && values[ZLATOMRUK_CF_CF_INST] == ZLATOMRUK_FETCH_TEX, "it opens a texture clause");
    expect(2 * values[ZLATOMRUK_CF_ADDR] == FETCH, "at word 4");

    /* Into values and back: the same words. */
    memcpy(pack, texture_pack, sizeof pack);
    expect(judge(pack) == 0, "the pack is accepted");
    expect(zlatomruk_decode_fetch(pack, WORDS, FETCH, ZLATOMRUK_FETCH_TEX, values, ZLATOMRUK_VALUES) == 0, "the fetch is decoded");
    expect(values[0] == ZLATOMRUK_TEX && values[ZLATOMRUK_TEX_TEX_INST] == 16, "it is a SAMPLE");
    print(values);
    expect(zlatomruk_encode_fetch(values, ZLATOMRUK_VALUES, pack, WORDS, FETCH) == 0, "its values are encoded");
    expect(differences(pack, texture_pack) == 0, "the words are the same");

    /* OFFSET_X has -8 up to 8 texels in five bits: halves, two's complement. One texel to the left is 32 - 2. */
    values[ZLATOMRUK_TEX_OFFSET_X] = 32 - 2;
    expect(zlatomruk_encode_fetch(values, ZLATOMRUK_VALUES, pack, WORDS, FETCH) == 0, "the changed fetch is encoded");
    print(values);
    expect(differences(pack, texture_pack) == 1 && pack[FETCH + 2] == 0x6880001E, "OFFSET_X alone has changed");
    expect(judge(pack) == 0, "the changed pack is accepted");

    /* What is refused changes no word: OFFSET_X has 5 bits; four words do not fit at the last three; number 9 is not taken. */
    memcpy(before, pack, sizeof pack);
    values[ZLATOMRUK_TEX_OFFSET_X] = 32;
    uint32_t answer = zlatomruk_encode_fetch(values, ZLATOMRUK_VALUES, pack, WORDS, FETCH);
    printf("OFFSET_X=32: %u\n", answer);
    expect(answer == 21, "an offset of six bits is refused");
    values[ZLATOMRUK_TEX_OFFSET_X] = 31;
    expect(zlatomruk_encode_fetch(values, ZLATOMRUK_VALUES, pack, WORDS, FETCH + 1) == 20, "there is room for three words only");
    values[ZLATOMRUK_TEX_TEX_INST] = 9;
    expect(zlatomruk_encode_fetch(values, ZLATOMRUK_VALUES, pack, WORDS, FETCH) == 21, "number 9 is refused");
    expect(differences(pack, before) == 0, "no word has changed");

    /* Nor a value: in a VTX clause the number is not taken, and no fetch lies at the largest start. */
    expect(zlatomruk_decode_fetch(pack, WORDS, FETCH, ZLATOMRUK_FETCH_VTX, values, ZLATOMRUK_VALUES) == 8, "a SAMPLE is no vertex fetch");
    expect(zlatomruk_decode_fetch(pack, WORDS, SIZE_MAX, ZLATOMRUK_FETCH_TEX, values, ZLATOMRUK_VALUES) == 2, "nothing lies there");
    expect(values[ZLATOMRUK_TEX_OFFSET_X] == 31 && values[ZLATOMRUK_TEX_TEX_INST] == 9, "no value has changed");

    printf("%s\n", failures == 0 ? "all as expected" : "failed");
    return failures == 0 ? 0 : 1;
}
