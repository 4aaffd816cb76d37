/* Holds the header against the archive and against the table of fields: every index by the bits that change with its value, numbers, forms,
 * streams, kinds of fetches, lengths and the layout of an answer. fields.h has a row for each index, made by header_fields.sh. Exits 0 if all
 * agree. */
#include <pthread.h>
#include <stdio.h>
#include <string.h>

#include "zlatomruk.h"

static int failures = 0;

static void expect(int holds, const char *what) {
    if (!holds) {
        printf("header: not so: %s\n", what);
        failures++;
    }
}

struct field {
    uint32_t form;
    const char *name;
    int index, highest, lowest;
};

static const struct field fields[] = {
#include "fields.h"
};

enum { FIELDS = sizeof fields / sizeof fields[0], FORMS = 8 };

/* Of each form the index of its number, two numbers that it takes (or one, twice), how many values it has and in how many words, and the stream
 * or kind to decode it by. */
static const struct { int index; uint32_t one, other; int values, words; uint32_t stream; } numbers[FORMS] = {
    {ZLATOMRUK_CF_ALU_CF_INST, 8, 9, 12, 2, ZLATOMRUK_CONTROL_FLOW}, {ZLATOMRUK_CF_CF_INST, 0, 14, 12, 2, ZLATOMRUK_CONTROL_FLOW},
    {ZLATOMRUK_EXPORT_CF_INST, 39, 40, 17, 2, ZLATOMRUK_CONTROL_FLOW}, {ZLATOMRUK_OP2_ALU_INST, 25, 0, 23, 2, ZLATOMRUK_ALU},
    {ZLATOMRUK_OP3_ALU_INST, 16, 24, 21, 2, ZLATOMRUK_ALU}, {ZLATOMRUK_TEX_TEX_INST, 16, 31, 29, 3, ZLATOMRUK_FETCH_TEX},
    {ZLATOMRUK_VTX_VTX_INST, 0, 0, 26, 3, ZLATOMRUK_FETCH_VTX}, {ZLATOMRUK_VTX_VTX_INST, 1, 1, 25, 3, ZLATOMRUK_FETCH_VTX_TC},
};

static int is_fetch(uint32_t form) { return form >= ZLATOMRUK_TEX; }

/* An instruction's words, those of a pair with 0 behind them. */
struct words { uint32_t at[4]; };

/* The words of an instruction of this form, all of its fields 0 but the number and this one; decoded again, they are the same values. */
static struct words encoded(uint32_t form, int index, uint32_t value) {
    uint32_t values[ZLATOMRUK_VALUES] = {0}, back[ZLATOMRUK_VALUES] = {0}, stream = numbers[form].stream;
    struct words w = {{0, 0, 0, 0}};
    uint32_t encoding, decoding;
    values[0] = form;
    values[numbers[form].index] = numbers[form].one;
    values[index] = value;
    if (is_fetch(form)) {
        w.at[3] = 1;
        encoding = zlatomruk_encode_fetch(values, ZLATOMRUK_VALUES, w.at, 4, 0);
        decoding = zlatomruk_decode_fetch(w.at, 4, 0, stream, back, ZLATOMRUK_VALUES);
    } else {
        encoding = zlatomruk_encode(values, ZLATOMRUK_VALUES, w.at, 4, 0);
        decoding = zlatomruk_decode(w.at, 4, 0, stream, back, ZLATOMRUK_VALUES);
    }
    expect(encoding == ZLATOMRUK_VERDICT_ACCEPTED, "an instruction is encoded");
    expect(decoding == ZLATOMRUK_VERDICT_ACCEPTED && memcmp(values, back, sizeof back) == 0, "it is decoded again");
    return w;
}

static struct words difference(struct words one, struct words other) {
    int i;
    for (i = 0; i < 4; i++) one.at[i] ^= other.at[i];
    return one;
}

/* Which word of an instruction is these bits, where all others are 0; -1 if none is. */
static int word_of(struct words w, uint32_t bits) {
    int i, found = -1, others = 0;
    for (i = 0; i < 4; i++) {
        if (w.at[i] == bits && found < 0) found = i;
        else others |= w.at[i] != 0;
    }
    return others ? -1 : found;
}

/* A number by what changes from one that the form takes to another, and by that it stands alone where all else is 0: in word 0 of a fetch, in the
 * high word of a pair. */
static int check_number(const struct field *f) {
    uint32_t one = numbers[f->form].one, other = numbers[f->form].other;
    int word = is_fetch(f->form) ? 0 : 1;
    struct words alone = encoded(f->form, f->index, one), changed = difference(alone, encoded(f->form, f->index, other));
    expect(alone.at[word] == one << f->lowest, f->name);
    expect(changed.at[word] == (one ^ other) << f->lowest, f->name);
    return word;
}

/* The bits that a field takes, by what changes with it; COUNT of CF has its top bit apart. */
static struct words check_field(const struct field *f) {
    int width = f->highest - f->lowest + 1, word;
    int count = f->form == ZLATOMRUK_CF && f->index == ZLATOMRUK_CF_COUNT;
    struct words taken = {{0, 0, 0, 0}};
    uint32_t mask;
    if (f->lowest > f->highest) {
        expect(0, f->name);
        return taken;
    }
    mask = (uint32_t)(((UINT64_C(1) << width) - 1) << f->lowest) | (uint32_t)count << 19;
    if (f->index == numbers[f->form].index) {
        word = check_number(f);
    } else {
        uint32_t most = (uint32_t)((UINT64_C(1) << (width + count)) - 1);
        word = word_of(difference(encoded(f->form, f->index, most), encoded(f->form, f->index, 0)), mask);
    }
    expect(word >= 0, f->name);
    if (word >= 0) taken.at[word] = mask;
    return taken;
}

/* The lowest bit of a field, counted through the words. */
static int lowest(const struct words *w) {
    int bit = 0;
    while (bit < 128 && !(w->at[bit / 32] >> bit % 32 & 1)) bit++;
    return bit;
}

/* Each bit is in one field, and fields stand in their order from the lowest bit up. */
static void check_form(uint32_t form) {
    struct words at[ZLATOMRUK_VALUES] = {{{0, 0, 0, 0}}}, all = {{0, 0, 0, 0}};
    int i, j, n = 0, below = -1;
    for (i = 0; i < FIELDS; i++) {
        if (fields[i].form == form) {
            at[fields[i].index] = check_field(&fields[i]);
            n++;
        }
    }
    expect(n == numbers[form].values, "a form has as many names as values");
    for (i = 1; i <= n; i++) {
        for (j = 0; j < 4; j++) {
            expect((all.at[j] & at[i].at[j]) == 0, "no bit is in two fields");
            all.at[j] |= at[i].at[j];
        }
        expect(lowest(&at[i]) > below && lowest(&at[i]) < 128, "the fields of a form lie one behind the other");
        below = lowest(&at[i]);
    }
    for (j = 0; j < 4; j++) expect(all.at[j] == (j < numbers[form].words ? UINT32_MAX : 0), "the fields of a form take its words");
}

static uint64_t answer_to(const char *kind, const char *build, size_t pack_length) {
    static const uint8_t pack[] = {2, 0, 0, 0, 0, 0, 0, 160, 0, 0, 0, 0, 0, 0, 32, 0, 0, 0, 0, 128, 144, 12, 32, 0, 0};
    char card[128];
    int n = snprintf(card, sizeof card, "kind=%s\nbuild=%s\ngprs=2\ntemps=0\nconsts=0\nstack=0\nquads=3\n", kind, build);
    return zlatomruk_judge_files((const uint8_t *)card, (size_t)n, pack, pack_length);
}

/* The longest pack, with the longest section: as much stack as any takes. */
static uint8_t pack_of_nops[8 * 8192];

static void check_answers(void) {
    static const char longest[] = "kind=ps\nbuild=production\ngprs=127\ntemps=1\nconsts=256\nstack=32\nquads=8192\n";
    static const char of_five[] = "kind=ps\nbuild=production\ngprs=2\ntemps=0\nconsts=0\nstack=0\nquads=5\n";
    /* Quadword 0 opens the clause of 3 and 4, quadword 1 that of 4 alone. */
    static const uint32_t a_tail[] = {3, 0xA0040000, 4, 0xA0000000, 0, 0x00200000, 0x80000000, 0x00200C90, 0x80000400, 0x20200C90};
    uint64_t refused;
    expect(sizeof longest - 1 == ZLATOMRUK_CARD_LENGTH, "the longest card's length");
    expect(zlatomruk_number(zlatomruk_judge((const uint8_t *)longest, sizeof longest - 1, NULL, 0)) == ZLATOMRUK_VERDICT_LENGTH, "it is read");
    expect(zlatomruk_released(answer_to(ZLATOMRUK_KIND_PIXEL, ZLATOMRUK_BUILD_PRODUCTION, 24)) == 1, "the copy pack is released");
    expect(answer_to(ZLATOMRUK_KIND_VERTEX, ZLATOMRUK_BUILD_PRODUCTION, 24) == UINT64_C(1) << 48, "as one of vertices, too");
    expect(answer_to(ZLATOMRUK_KIND_GEOMETRY, ZLATOMRUK_BUILD_DEBUG, 24) == ZLATOMRUK_VERDICT_ACCEPTED, "accepted is not released");
    expect(answer_to(ZLATOMRUK_KIND_PIXEL, ZLATOMRUK_BUILD_PRODUCTION, 25) == ZLATOMRUK_VERDICT_LENGTH, "a byte too many");
    pack_of_nops[4 * 2 * 511 + 6] = 1 << 5; /* the end bit, 21, of pair 511 */
    expect(zlatomruk_released(zlatomruk_judge_files((const uint8_t *)longest, sizeof longest - 1, pack_of_nops, sizeof pack_of_nops)), "512 NOPs");
    refused = answer_to("cs", ZLATOMRUK_BUILD_DEBUG, 24);
    expect(zlatomruk_number(refused) == ZLATOMRUK_VERDICT_CARD && zlatomruk_place(refused) == 1 && zlatomruk_slot(refused) == 0, "no such kind");
    expect(zlatomruk_number(answer_to(ZLATOMRUK_KIND_PIXEL, "release", 24)) == ZLATOMRUK_VERDICT_CARD, "no such build");
    refused = zlatomruk_judge((const uint8_t *)of_five, sizeof of_five - 1, a_tail, sizeof a_tail / sizeof a_tail[0]);
    expect(refused == (ZLATOMRUK_VERDICT_CLAUSE_LAYOUT | UINT64_C(1) << 16), "a tail of another clause, at quadword 1");
}

static void check_codec(void) {
    static const uint32_t words[] = {0x00000002, 0xA0000000, 0x00000000, 0x00200000, 0x80000000, 0x00200C90};
    uint32_t values[ZLATOMRUK_VALUES];
    expect(zlatomruk_decode(words, 6, 0, ZLATOMRUK_CONTROL_FLOW, values, ZLATOMRUK_VALUES) == 0 && values[0] == ZLATOMRUK_CF_ALU, "an opener");
    expect(zlatomruk_decode(words, 6, 2, ZLATOMRUK_CONTROL_FLOW, values, ZLATOMRUK_VALUES) == 0 && values[0] == ZLATOMRUK_CF, "a NOP");
    expect(zlatomruk_decode(words, 6, 4, ZLATOMRUK_ALU, values, ZLATOMRUK_VALUES) == 0 && values[0] == ZLATOMRUK_OP2, "a MOV");
    expect(zlatomruk_decode(words, 6, 4, ZLATOMRUK_ALU, values, ZLATOMRUK_VALUES - 1) == ZLATOMRUK_VERDICT_NO_ROOM, "a row too short");
    expect(zlatomruk_decode(words, 6, 5, ZLATOMRUK_ALU, values, ZLATOMRUK_VALUES) == ZLATOMRUK_VERDICT_LENGTH, "half a pair");
    expect(zlatomruk_decode(words, 6, 4, ZLATOMRUK_ALU + 1, values, ZLATOMRUK_VALUES) == ZLATOMRUK_VERDICT_NO_RECORD, "a stream above 1");
    expect(zlatomruk_decode(words, 6, 4, UINT32_MAX, values, ZLATOMRUK_VALUES) == ZLATOMRUK_VERDICT_NO_RECORD, "the largest stream");
}

/* What a row of this form, its number as given and all else 0, is answered by each encoder, with room for four words and for three. */
static void check_row(uint32_t form, uint32_t number, uint32_t pair, uint32_t fetch, const char *what) {
    uint32_t values[ZLATOMRUK_VALUES] = {0}, words[4] = {7, 7, 7, 7};
    values[0] = form;
    values[form < FORMS ? numbers[form].index : 1] = number;
    expect(zlatomruk_encode_fetch(values, ZLATOMRUK_VALUES, words, 4, 0) == fetch, what);
    expect(fetch == 0 ? words[3] == 0 : words[0] == 7 && words[1] == 7 && words[2] == 7 && words[3] == 7, what);
    expect(zlatomruk_encode_fetch(values, ZLATOMRUK_VALUES, words, 4, 1) == (fetch == 0 ? ZLATOMRUK_VERDICT_NO_ROOM : fetch), what);
    expect(zlatomruk_encode_fetch(values, ZLATOMRUK_VALUES, words, 4, SIZE_MAX) == (fetch == 0 ? ZLATOMRUK_VERDICT_NO_ROOM : fetch), what);
    expect(zlatomruk_encode_fetch(values, ZLATOMRUK_VALUES - 1, words, 4, 0) == ZLATOMRUK_VERDICT_NO_RECORD, what);
    expect(zlatomruk_encode(values, ZLATOMRUK_VALUES, words, 4, 0) == pair, what);
}

static void check_fetches(void) {
    static const uint32_t words[] = {0x00000010, 0, 0, 0, 0x00000000, 0, 0, 0, 0x00000001, 0, 0, 0, 0x00000001, 0, 0, 1};
    uint32_t values[ZLATOMRUK_VALUES], number;
    expect(zlatomruk_decode_fetch(words, 16, 0, ZLATOMRUK_FETCH_TEX, values, ZLATOMRUK_VALUES) == 0 && values[0] == ZLATOMRUK_TEX, "a sample");
    for (number = ZLATOMRUK_FETCH_VTX; number <= ZLATOMRUK_FETCH_VTX_TC; number++) {
        expect(zlatomruk_decode_fetch(words, 16, 4, number, values, ZLATOMRUK_VALUES) == 0 && values[0] == ZLATOMRUK_VTX_GPR, "a fetch");
        expect(zlatomruk_decode_fetch(words, 16, 8, number, values, ZLATOMRUK_VALUES) == 0 && values[0] == ZLATOMRUK_VTX_SEM, "a semantic one");
        expect(zlatomruk_decode_fetch(words, 16, 0, number, values, ZLATOMRUK_VALUES) == ZLATOMRUK_VERDICT_FETCH_NUMBER, "a sample in VTX");
        expect(zlatomruk_decode_fetch(words, 16, 12, number, values, ZLATOMRUK_VALUES) == ZLATOMRUK_VERDICT_FETCH_NUMBER, "a word 3 that is not 0");
    }
    expect(zlatomruk_decode_fetch(words, 16, 4, ZLATOMRUK_FETCH_TEX, values, ZLATOMRUK_VALUES) == ZLATOMRUK_VERDICT_FETCH_NUMBER, "number 0 in TEX");
    expect(zlatomruk_decode_fetch(words, 16, 0, ZLATOMRUK_FETCH_TEX, values, ZLATOMRUK_VALUES - 1) == ZLATOMRUK_VERDICT_NO_ROOM, "a row too short");
    expect(zlatomruk_decode_fetch(words, 16, 13, ZLATOMRUK_FETCH_TEX, values, ZLATOMRUK_VALUES) == ZLATOMRUK_VERDICT_LENGTH, "three words");
    expect(zlatomruk_decode_fetch(NULL, 0, 0, ZLATOMRUK_FETCH_TEX, NULL, 0) == ZLATOMRUK_VERDICT_LENGTH, "no words");
    expect(zlatomruk_decode_fetch(words, 16, SIZE_MAX, ZLATOMRUK_FETCH_VTX, NULL, 0) == ZLATOMRUK_VERDICT_LENGTH, "the largest start");
    expect(zlatomruk_decode_fetch(NULL, 0, 0, 0, NULL, 0) == ZLATOMRUK_VERDICT_NO_RECORD, "kind 0");
    expect(zlatomruk_decode_fetch(words, 16, 0, ZLATOMRUK_FETCH_VTX_TC + 1, values, ZLATOMRUK_VALUES) == ZLATOMRUK_VERDICT_NO_RECORD, "kind 4");
    expect(zlatomruk_decode_fetch(words, 16, 0, UINT32_MAX, values, ZLATOMRUK_VALUES) == ZLATOMRUK_VERDICT_NO_RECORD, "the largest kind");
    for (number = 0; number < 64; number++) {
        int taken = (number >= 2 && number <= 8) || (number >= 10 && number <= 12) || number == 14 || (number >= 16 && number <= 31);
        check_row(ZLATOMRUK_TEX, number, ZLATOMRUK_VERDICT_NO_RECORD, taken ? 0 : ZLATOMRUK_VERDICT_NO_RECORD, "a number of TEX");
        check_row(ZLATOMRUK_VTX_GPR, number, ZLATOMRUK_VERDICT_NO_RECORD, number == 0 ? 0 : ZLATOMRUK_VERDICT_NO_RECORD, "VTX_GPR has number 0");
        check_row(ZLATOMRUK_VTX_SEM, number, ZLATOMRUK_VERDICT_NO_RECORD, number == 1 ? 0 : ZLATOMRUK_VERDICT_NO_RECORD, "VTX_SEM has number 1");
    }
    for (number = 0; number < ZLATOMRUK_TEX; number++) {
        check_row(number, numbers[number].one, 0, ZLATOMRUK_VERDICT_NO_RECORD, "a pair's form is no fetch's");
    }
    check_row(FORMS, 0, ZLATOMRUK_VERDICT_NO_RECORD, ZLATOMRUK_VERDICT_NO_RECORD, "there is no form 8");
    check_row(UINT32_MAX, 0, ZLATOMRUK_VERDICT_NO_RECORD, ZLATOMRUK_VERDICT_NO_RECORD, "the largest form");
}

static void *all(void *unused) {
    uint32_t form;
    for (form = 0; form < FORMS; form++) check_form(form);
    check_answers();
    check_codec();
    check_fetches();
    return unused;
}

/* On a stack of the size that the header names, with what a thread and printf take besides. */
int main(void) {
    pthread_attr_t attributes;
    pthread_t thread;
    expect(pthread_attr_init(&attributes) == 0 && pthread_attr_setstacksize(&attributes, ZLATOMRUK_STACK + 16384) == 0, "a small stack");
    if (failures == 0 && (pthread_create(&thread, &attributes, all, NULL) != 0 || pthread_join(thread, NULL) != 0)) failures++;
    return failures == 0 ? 0 : 1;
}
