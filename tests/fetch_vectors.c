/* Holds zlatomruk_decode_fetch and zlatomruk_encode_fetch against vectors on standard input, a case a line (tests/fetch-vectors.txt has them and
 * says their form): verdict, every field by its name, every word, and that nothing else is written. A line that is not understood counts as one
 * that differs. Prints those that differ and how many agree; exits 0 exactly if all do and there is one. */
#include <stdio.h>
#include <stdlib.h>
#include <string.h>

#include "zlatomruk.h"

enum { LINE = 8192, MOST_WORDS = 256 };

/* What stands in every element before a call. */
static const uint32_t mark = 0xA5C3F00D;

struct field {
    const char *name;
    int index;
};

#define FIELD(form, name) {#name, ZLATOMRUK_##form##_##name}
#define VTX_WORD_0                                                                                                                     \
    FIELD(VTX, VTX_INST), FIELD(VTX, FETCH_TYPE), FIELD(VTX, FETCH_WHOLE_QUAD), FIELD(VTX, BUFFER_ID), FIELD(VTX, SRC_GPR),            \
        FIELD(VTX, SRC_REL), FIELD(VTX, SRC_SEL_X), FIELD(VTX, MEGA_FETCH_COUNT)
#define VTX_BEHIND(form)                                                                                                               \
    FIELD(form, RESERVED1_8), FIELD(form, DST_SEL_X), FIELD(form, DST_SEL_Y), FIELD(form, DST_SEL_Z), FIELD(form, DST_SEL_W),          \
        FIELD(form, USE_CONST_FIELDS), FIELD(form, DATA_FORMAT), FIELD(form, NUM_FORMAT_ALL), FIELD(form, FORMAT_COMP_ALL),            \
        FIELD(form, SRF_MODE_ALL), FIELD(form, OFFSET), FIELD(form, ENDIAN_SWAP), FIELD(form, CONST_BUF_NO_STRIDE),                    \
        FIELD(form, MEGA_FETCH), FIELD(form, ALT_CONST), FIELD(form, RESERVED2_21)

static const struct field tex_fields[] = {
    FIELD(TEX, TEX_INST), FIELD(TEX, BC_FRAC_MODE), FIELD(TEX, RESERVED0_6), FIELD(TEX, FETCH_WHOLE_QUAD), FIELD(TEX, RESOURCE_ID),
    FIELD(TEX, SRC_GPR), FIELD(TEX, SRC_REL), FIELD(TEX, ALT_CONST), FIELD(TEX, RESERVED0_25),
    FIELD(TEX, DST_GPR), FIELD(TEX, DST_REL), FIELD(TEX, RESERVED1_8), FIELD(TEX, DST_SEL_X), FIELD(TEX, DST_SEL_Y),
    FIELD(TEX, DST_SEL_Z), FIELD(TEX, DST_SEL_W), FIELD(TEX, LOD_BIAS), FIELD(TEX, COORD_TYPE_X), FIELD(TEX, COORD_TYPE_Y),
    FIELD(TEX, COORD_TYPE_Z), FIELD(TEX, COORD_TYPE_W),
    FIELD(TEX, OFFSET_X), FIELD(TEX, OFFSET_Y), FIELD(TEX, OFFSET_Z), FIELD(TEX, SAMPLER_ID), FIELD(TEX, SRC_SEL_X),
    FIELD(TEX, SRC_SEL_Y), FIELD(TEX, SRC_SEL_Z), FIELD(TEX, SRC_SEL_W),
};
static const struct field gpr_fields[] = {VTX_WORD_0, FIELD(VTX_GPR, DST_GPR), FIELD(VTX_GPR, DST_REL), VTX_BEHIND(VTX_GPR)};
static const struct field sem_fields[] = {VTX_WORD_0, FIELD(VTX_SEM, SEMANTIC_ID), VTX_BEHIND(VTX_SEM)};

static const struct form {
    const char *name;
    uint32_t number;
    const struct field *fields;
    int count;
} forms[] = {
    {"tex", ZLATOMRUK_TEX, tex_fields, sizeof tex_fields / sizeof tex_fields[0]},
    {"vtx_gpr", ZLATOMRUK_VTX_GPR, gpr_fields, sizeof gpr_fields / sizeof gpr_fields[0]},
    {"vtx_sem", ZLATOMRUK_VTX_SEM, sem_fields, sizeof sem_fields / sizeof sem_fields[0]},
};

static const struct { const char *name; uint32_t number; } kinds[] = {
    {"tex", ZLATOMRUK_FETCH_TEX}, {"vtx", ZLATOMRUK_FETCH_VTX}, {"vtx_tc", ZLATOMRUK_FETCH_VTX_TC},
};

/* One side of =>. The keys that were there, of a form its fields among them; `values` has the marks where none stood. */
struct side {
    const char *verdict, *place, *slot, *kind, *start, *words;
    const struct form *form;
    int fields;
    uint32_t values[ZLATOMRUK_VALUES];
};

/* A decimal number of at most `most`, all of the text. */
static int number(const char *text, uint64_t most, uint64_t *value) {
    const char *digit = text;
    for (*value = 0; *digit >= '0' && *digit <= '9'; digit++) {
        uint64_t next = (uint64_t)(*digit - '0');
        if (*value > (most - next) / 10) return 0;
        *value = 10 * *value + next;
    }
    return digit != text && *digit == 0;
}

/* Words: eight hexadecimal digits each, HEX*N for N of them, commas between, - for none; marks stand behind them. How many there are; -1 if it is
 * no such list. */
static int read_words(const char *text, uint32_t *words) {
    int i, count = 0;
    for (i = 0; i < MOST_WORDS; i++) words[i] = mark;
    if (strcmp(text, "-") == 0) return 0;
    for (;;) {
        unsigned long times = 1;
        uint32_t word;
        char *end;
        if (strspn(text, "0123456789ABCDEF") != 8) return -1;
        word = (uint32_t)strtoul(text, &end, 16);
        if (*end == '*') {
            text = end + 1;
            times = strtoul(text, &end, 10);
            if (end == text) return -1;
        }
        if (times < 1 || times > (unsigned long)(MOST_WORDS - count)) return -1;
        while (times-- > 0) words[count++] = word;
        if (*end == 0) return count;
        if (*end != ',') return -1;
        text = end + 1;
    }
}

/* Puts a key's value into its place: 0 if there is none, or it was there before. */
static int put_key(struct side *side, const char *key, const char *value) {
    const char **place = strcmp(key, "verdict") == 0 ? &side->verdict
                         : strcmp(key, "place") == 0 ? &side->place
                         : strcmp(key, "slot") == 0  ? &side->slot
                         : strcmp(key, "kind") == 0  ? &side->kind
                         : strcmp(key, "start") == 0 ? &side->start
                         : strcmp(key, "words") == 0 ? &side->words
                                                     : NULL;
    uint64_t bits;
    int i;
    if (place != NULL) {
        if (*place != NULL) return 0;
        *place = value;
        return 1;
    }
    if (strcmp(key, "form") == 0) {
        for (i = 0; i < 3; i++) {
            if (side->form == NULL && strcmp(value, forms[i].name) == 0) {
                side->form = &forms[i];
                side->values[0] = forms[i].number;
                return 1;
            }
        }
        return 0;
    }
    for (i = 0; side->form != NULL && i < side->form->count; i++) {
        const struct field *field = &side->form->fields[i];
        if (strcmp(key, field->name) == 0) {
            if (side->values[field->index] != mark || !number(value, UINT32_MAX, &bits) || bits == mark) return 0;
            side->values[field->index] = (uint32_t)bits;
            side->fields++;
            return 1;
        }
    }
    return 0;
}

/* The keys up to the line's end or =>, as strtok hands them out. */
static int read_side(struct side *side) {
    char *token;
    int i;
    memset(side, 0, sizeof *side);
    for (i = 0; i < ZLATOMRUK_VALUES; i++) side->values[i] = mark;
    while ((token = strtok(NULL, " \n")) != NULL && strcmp(token, "=>") != 0) {
        char *equals = strchr(token, '=');
        if (equals == NULL) return 0;
        *equals = 0;
        if (!put_key(side, token, equals + 1)) return 0;
    }
    /* A form comes with all of its fields. */
    return side->fields == (side->form == NULL ? 0 : side->form->count);
}

static int differs(const char *id, const char *what) {
    printf("%s: %s\n", id, what);
    return 0;
}

static int decodes(const char *id, const struct side *given, const struct side *wanted, size_t start, uint32_t verdict) {
    uint32_t words[MOST_WORDS], before[MOST_WORDS], values[ZLATOMRUK_VALUES], answer, kind = 0;
    int i, count = read_words(given->words, words);
    for (i = 0; i < 3; i++) {
        if (strcmp(given->kind, kinds[i].name) == 0) kind = kinds[i].number;
    }
    if (kind == 0 || count < 0) return differs(id, "kind or words are not understood");
    for (i = 0; i < ZLATOMRUK_VALUES; i++) values[i] = mark;
    memcpy(before, words, sizeof words);
    answer = zlatomruk_decode_fetch(words, (size_t)count, start, kind, values, ZLATOMRUK_VALUES);
    if (answer != verdict) {
        printf("%s: decoded with %u, not %u\n", id, answer, verdict);
        return 0;
    }
    /* With 0 the form's values, and the marks behind them; else marks alone. */
    if (memcmp(values, wanted->values, sizeof values) != 0) {
        printf("%s: decoded to other values:", id);
        for (i = 0; i < ZLATOMRUK_VALUES; i++) {
            if (values[i] != wanted->values[i]) printf(" element %d is %u, not %u", i, values[i], wanted->values[i]);
        }
        printf("\n");
        return 0;
    }
    return memcmp(before, words, sizeof words) == 0 || differs(id, "the words have changed");
}

static int encodes(const char *id, const struct side *given, const struct side *wanted, size_t start, uint32_t verdict) {
    uint32_t words[MOST_WORDS], expected[MOST_WORDS], answer;
    int i, count = read_words(given->words, words);
    if (count < 0 || read_words(wanted->words, expected) != count) return differs(id, "words are not understood");
    answer = zlatomruk_encode_fetch(given->values, ZLATOMRUK_VALUES, words, (size_t)count, start);
    if (answer != verdict) {
        printf("%s: encoded with %u, not %u\n", id, answer, verdict);
        return 0;
    }
    for (i = 0; i < MOST_WORDS; i++) {
        if (words[i] != expected[i]) {
            printf("%s: word %d is %08X, not %08X\n", id, i, words[i], expected[i]);
            return 0;
        }
    }
    return 1;
}

/* Whether a case comes out as its line says. */
static int agrees(char *line) {
    struct side given, wanted;
    const char *id = strtok(line, " \n"), *operation = strtok(NULL, " \n");
    uint64_t start, verdict, place, slot;
    int decode, whole;
    if (operation == NULL || (strcmp(operation, "fetch-decode") != 0 && strcmp(operation, "fetch-encode") != 0)) {
        return differs(id, "no such case");
    }
    decode = strcmp(operation, "fetch-decode") == 0;
    whole = read_side(&given) && read_side(&wanted) && given.start != NULL && given.words != NULL && given.verdict == NULL &&
            given.place == NULL && given.slot == NULL && wanted.kind == NULL && wanted.start == NULL && wanted.verdict != NULL &&
            wanted.place != NULL && wanted.slot != NULL;
    if (!whole || !number(given.start, SIZE_MAX, &start) || !number(wanted.verdict, UINT32_MAX, &verdict) ||
        !number(wanted.place, UINT32_MAX, &place) || !number(wanted.slot, UINT32_MAX, &slot)) {
        return differs(id, "not understood");
    }
    if (place != 0 || slot != 0) return differs(id, "place and slot are 0 always");
    if (decode) {
        if (given.kind == NULL || given.form != NULL || wanted.words != NULL || (wanted.form != NULL) != (verdict == 0)) {
            return differs(id, "not understood");
        }
        return decodes(id, &given, &wanted, (size_t)start, (uint32_t)verdict);
    }
    if (given.kind != NULL || given.form == NULL || wanted.words == NULL || wanted.form != NULL) return differs(id, "not understood");
    return encodes(id, &given, &wanted, (size_t)start, (uint32_t)verdict);
}

int main(void) {
    static char line[LINE];
    unsigned long cases = 0, agree = 0;
    while (fgets(line, sizeof line, stdin) != NULL) {
        if (line[0] == '#' || line[strspn(line, " \n")] == 0) continue;
        cases++;
        agree += (unsigned long)agrees(line);
    }
    printf("%lu of %lu agree\n", agree, cases);
    return cases > 0 && agree == cases && !ferror(stdin) ? 0 : 1;
}
