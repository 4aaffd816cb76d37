/* Takes document 01's copy pack apart, prints every field by name, and puts it together again; then has its MOV write another register.
 * Exits 0 exactly if every answer and every word is as expected. */
#include <stdio.h>
#include <string.h>

#include "zlatomruk.h"

enum { PAIRS = 3, WORDS = 2 * PAIRS };

static const uint32_t copy_pack[WORDS] = {0x00000002, 0xA0000000, 0x00000000, 0x00200000, 0x80000000, 0x00200C90};
static const uint32_t streams[PAIRS] = {ZLATOMRUK_CONTROL_FLOW, ZLATOMRUK_CONTROL_FLOW, ZLATOMRUK_ALU};

/* The form and its fields, by index. */
static const char *const names[][ZLATOMRUK_VALUES] = {
    {"CF_ALU", "ADDR", "KCACHE_BANK0", "KCACHE_BANK1", "KCACHE_MODE0", "KCACHE_MODE1", "KCACHE_ADDR0", "KCACHE_ADDR1", "COUNT",
     "ALT_CONST", "CF_INST", "WHOLE_QUAD_MODE", "BARRIER"},
    {"CF", "ADDR", "POP_COUNT", "CF_CONST", "COND", "COUNT", "CALL_COUNT", "bit 20", "END_OF_PROGRAM", "VALID_PIXEL_MODE",
     "CF_INST", "WHOLE_QUAD_MODE", "BARRIER"},
    {"export", "ARRAY_BASE", "TYPE", "RW_GPR", "RW_REL", "INDEX_GPR", "ELEM_SIZE", "SEL_X", "SEL_Y", "SEL_Z", "SEL_W",
     "bits 16:12", "BURST_COUNT", "END_OF_PROGRAM", "VALID_PIXEL_MODE", "CF_INST", "WHOLE_QUAD_MODE", "BARRIER"},
    {"ALU, OP2", "SRC0_SEL", "SRC0_REL", "SRC0_CHAN", "SRC0_NEG", "SRC1_SEL", "SRC1_REL", "SRC1_CHAN", "SRC1_NEG", "INDEX_MODE",
     "PRED_SEL", "LAST", "SRC0_ABS", "SRC1_ABS", "UPDATE_EXECUTE_MASK", "UPDATE_PRED", "WRITE_MASK", "OMOD", "ALU_INST",
     "BANK_SWIZZLE", "DST_GPR", "DST_REL", "DST_CHAN", "CLAMP"},
    {"ALU, OP3", "SRC0_SEL", "SRC0_REL", "SRC0_CHAN", "SRC0_NEG", "SRC1_SEL", "SRC1_REL", "SRC1_CHAN", "SRC1_NEG", "INDEX_MODE",
     "PRED_SEL", "LAST", "SRC2_SEL", "SRC2_REL", "SRC2_CHAN", "SRC2_NEG", "ALU_INST", "BANK_SWIZZLE", "DST_GPR", "DST_REL",
     "DST_CHAN", "CLAMP"},
};

static int failures = 0;

static void expect(int holds, const char *what) {
    if (!holds) {
        printf("not as expected: %s\n", what);
        failures++;
    }
}

static void print(size_t start, const uint32_t *values) {
    const char *const *name = names[values[0]];
    printf("words %zu and %zu, %s:", start, start + 1, name[0]);
    for (size_t i = 1; i < ZLATOMRUK_VALUES && name[i] != NULL; i++) {
        printf(" %s=%u", name[i], values[i]);
    }
    printf("\n");
}

/* The verdict's number on a pack, by a card that grants one register. */
static uint32_t judge(const uint32_t *pack) {
    static const char card[] = "kind=ps\nbuild=production\ngprs=1\ntemps=0\nconsts=0\nstack=0\nquads=3\n";
    return zlatomruk_number(zlatomruk_judge((const uint8_t *)card, sizeof card - 1, pack, WORDS));
}

int main(void) {
    uint32_t values[ZLATOMRUK_VALUES] = {0};
    uint32_t pack[WORDS] = {0};

    /* Pair by pair into values and back: the same words. */
    for (size_t pair = 0; pair < PAIRS; pair++) {
        expect(zlatomruk_decode(copy_pack, WORDS, 2 * pair, streams[pair], values, ZLATOMRUK_VALUES) == 0, "a pair is decoded");
        print(2 * pair, values);
        expect(zlatomruk_encode(values, ZLATOMRUK_VALUES, pack, WORDS, 2 * pair) == 0, "its values are encoded");
    }
    expect(memcmp(pack, copy_pack, sizeof pack) == 0, "the words are the same");

    /* The last pair is the MOV; it writes register 1, which the card does not grant. Let it write register 0. */
    expect(values[0] == ZLATOMRUK_OP2 && values[ZLATOMRUK_OP2_DST_GPR] == 1, "the MOV writes register 1");
    expect(judge(pack) == 15, "register 1 is not granted");
    values[ZLATOMRUK_OP2_DST_GPR] = 0;
    expect(zlatomruk_encode(values, ZLATOMRUK_VALUES, pack, WORDS, 4) == 0, "the changed MOV is encoded");
    print(4, values);
    expect(pack[4] == 0x80000000 && pack[5] == 0x00000C90, "DST_GPR alone has changed");
    expect(judge(pack) == 0, "the changed pack is accepted");

    /* What is refused changes no word: DST_GPR has 7 bits; two words do not fit at the last; a row has 32 elements, not 31. */
    uint32_t before[WORDS];
    memcpy(before, pack, sizeof pack);
    values[ZLATOMRUK_OP2_DST_GPR] = 128;
    uint32_t answer = zlatomruk_encode(values, ZLATOMRUK_VALUES, pack, WORDS, 4);
    printf("DST_GPR=128: %u\n", answer);
    expect(answer == 21, "register 128 is refused");
    values[ZLATOMRUK_OP2_DST_GPR] = 127;
    expect(zlatomruk_encode(values, ZLATOMRUK_VALUES, pack, WORDS, WORDS - 1) == 20, "there is room for one word only");
    expect(memcmp(pack, before, sizeof pack) == 0, "no word has changed");
    expect(zlatomruk_decode(pack, WORDS, 4, ZLATOMRUK_ALU, values, ZLATOMRUK_VALUES - 1) == 20, "a row of 31 elements is too short");
    expect(values[ZLATOMRUK_OP2_DST_GPR] == 127, "no value has changed");
    expect(zlatomruk_decode(pack, WORDS, SIZE_MAX, ZLATOMRUK_ALU, NULL, 0) == 2, "no pair lies at the largest start");

    printf("%s\n", failures == 0 ? "all as expected" : "failed");
    return failures == 0 ? 0 : 1;
}
