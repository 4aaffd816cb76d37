/* The proved judge and codec, for C and C++ on x86-64 Linux. One archive has all of it: `./install PREFIX` puts it where pkg-config finds it
 * (zlatomruk), and `tools/archive` writes target/libzlatomruk.a in a checkout. docs/USING.md has examples.
 *
 * Nothing is allocated, nothing is kept between calls and nothing is written but what an argument without const points to: every function may be
 * called from several threads at once. The only symbol that the archive needs is memset. Any arguments get an answer.
 *
 * What is proved holds of a caller who keeps this:
 * - Each pointer is aligned as its type asks and valid for as many ELEMENTS (not bytes) as the length behind it says; where the length is 0 it
 *   may be anything, NULL too.
 * - What a function writes (the codec's arguments that are not const) does not overlap its other arguments, and nobody else writes to any
 *   argument meanwhile.
 * - The stack has room: ZLATOMRUK_STACK bytes are enough for any call. A stack that runs out is outside of every theorem. */
#ifndef ZLATOMRUK_H
#define ZLATOMRUK_H

#include <stddef.h>
#include <stdint.h>

#ifdef __cplusplus
extern "C" {
#endif

#define ZLATOMRUK_VERSION "0.8.0"
#define ZLATOMRUK_VERSION_NUMBER 800 /* 10,000 times the first number, 100 times the second, and the third */

enum { ZLATOMRUK_STACK = 98304 };

/* ---- The judge */

/* The numbers of verdicts and answers: docs/USING.md says what each means and what to do about it. */
enum zlatomruk_verdict {
    ZLATOMRUK_VERDICT_ACCEPTED = 0,
    ZLATOMRUK_VERDICT_CARD = 1,
    ZLATOMRUK_VERDICT_LENGTH = 2,
    ZLATOMRUK_VERDICT_NO_END = 3,
    ZLATOMRUK_VERDICT_CF_NUMBER = 4,
    ZLATOMRUK_VERDICT_CF_FIELD = 5,
    ZLATOMRUK_VERDICT_CLAUSE_RANGE = 6,
    ZLATOMRUK_VERDICT_EXPORT = 7,
    ZLATOMRUK_VERDICT_FETCH_NUMBER = 8,
    ZLATOMRUK_VERDICT_FETCH_REGISTER = 9,
    ZLATOMRUK_VERDICT_GROUP_SHAPE = 10,
    ZLATOMRUK_VERDICT_ALU_NUMBER = 11,
    ZLATOMRUK_VERDICT_ALU_FIELD = 12,
    ZLATOMRUK_VERDICT_UNIT = 13,
    ZLATOMRUK_VERDICT_ISSUE = 14,
    ZLATOMRUK_VERDICT_NOT_GRANTED = 15,
    ZLATOMRUK_VERDICT_STACK = 16,
    ZLATOMRUK_VERDICT_STACK_AT_END = 17,
    ZLATOMRUK_VERDICT_TARGET = 18,
    ZLATOMRUK_VERDICT_STACKS_DIFFER = 19,
    ZLATOMRUK_VERDICT_NO_ROOM = 20, /* the codec's */
    ZLATOMRUK_VERDICT_NO_RECORD = 21, /* the codec's */
    ZLATOMRUK_VERDICT_CLAUSE_LAYOUT = 22 /* asked directly after 6 */
};

/* A card is seven lines of text, `kind=ps` and so on, in ZLATOMRUK_CARD_LENGTH bytes at most. Its kinds and builds: */
#define ZLATOMRUK_KIND_PIXEL "ps"
#define ZLATOMRUK_KIND_VERTEX "vs"
#define ZLATOMRUK_KIND_GEOMETRY "gs"
#define ZLATOMRUK_BUILD_PRODUCTION "production"
#define ZLATOMRUK_BUILD_DEBUG "debug"
enum { ZLATOMRUK_CARD_LENGTH = 73 };

/* The verdict on a pack's file by a card's, each whole and in bytes, and whether the pack is released. What `judge CARD PACK` answers: a byte too
 * many in the pack is 2; bytes behind the card's seventh line are 1 at place 8. */
uint64_t zlatomruk_judge_files(const uint8_t *card, size_t card_length, const uint8_t *pack, size_t pack_length);

/* The verdict on a pack of 32-bit words by a card in bytes; what stands behind the card's seventh line is not looked at. It says nothing of
 * release: 0 is accepted, a debug build or not. Then every walk of the pack is safe (docs/READING.md, demand 3). */
uint64_t zlatomruk_judge(const uint8_t *card, size_t card_length, const uint32_t *words, size_t words_length);

/* What an answer holds: the verdict's number in bits 7:0, its place in bits 31:16, its slot in bits 47:32. Bit 48 is set exactly if the pack is
 * released, which zlatomruk_judge never says. Bits 15:8 are 0 and kept for the operand at fault; bits 63:49 are 0. */
static inline uint32_t zlatomruk_number(uint64_t answer) { return (uint32_t)(answer & 0xFF); }
static inline uint32_t zlatomruk_place(uint64_t answer) { return (uint32_t)(answer >> 16 & 0xFFFF); }
static inline uint32_t zlatomruk_slot(uint64_t answer) { return (uint32_t)(answer >> 32 & 0xFFFF); }
static inline int zlatomruk_released(uint64_t answer) { return (int)(answer >> 48 & 1); }

/* ---- The codec: a pair of words, or a fetch's four, as 32-bit values, and back.
 *
 * Element 0 is the form. Behind it stand the fields of the low word, then those of the high word, each from the lowest bit up, by AMD's
 * names. COUNT of a CF pair, which has two pieces in the word, is one value; bit 20 and bits 16:12 are carried.
 *
 *  0  0 CF_ALU           1 CF               2 export           3 ALU, OP2            4 ALU, OP3
 *  1  ADDR               ADDR               ARRAY_BASE         SRC0_SEL              SRC0_SEL
 *  2  KCACHE_BANK0       POP_COUNT          TYPE               SRC0_REL              SRC0_REL
 *  3  KCACHE_BANK1       CF_CONST           RW_GPR             SRC0_CHAN             SRC0_CHAN
 *  4  KCACHE_MODE0       COND               RW_REL             SRC0_NEG              SRC0_NEG
 *  5  KCACHE_MODE1       COUNT              INDEX_GPR          SRC1_SEL              SRC1_SEL
 *  6  KCACHE_ADDR0       CALL_COUNT         ELEM_SIZE          SRC1_REL              SRC1_REL
 *  7  KCACHE_ADDR1       bit 20             SEL_X              SRC1_CHAN             SRC1_CHAN
 *  8  COUNT              END_OF_PROGRAM     SEL_Y              SRC1_NEG              SRC1_NEG
 *  9  ALT_CONST          VALID_PIXEL_MODE   SEL_Z              INDEX_MODE            INDEX_MODE
 *  10 CF_INST            CF_INST            SEL_W              PRED_SEL              PRED_SEL
 *  11 WHOLE_QUAD_MODE    WHOLE_QUAD_MODE    bits 16:12         LAST                  LAST
 *  12 BARRIER            BARRIER            BURST_COUNT        SRC0_ABS              SRC2_SEL
 *  13                                       END_OF_PROGRAM     SRC1_ABS              SRC2_REL
 *  14                                       VALID_PIXEL_MODE   UPDATE_EXECUTE_MASK   SRC2_CHAN
 *  15                                       CF_INST            UPDATE_PRED           SRC2_NEG
 *  16                                       WHOLE_QUAD_MODE    WRITE_MASK            ALU_INST
 *  17                                       BARRIER            OMOD                  BANK_SWIZZLE
 *  18                                                          ALU_INST              DST_GPR
 *  19                                                          BANK_SWIZZLE          DST_REL
 *  20                                                          DST_GPR               DST_CHAN
 *  21                                                          DST_REL               CLAMP
 *  22                                                          DST_CHAN
 *  23                                                          CLAMP
 *
 * A fetch has the fields of its words 0, 1 and 2, one word behind the other; word 3 is 0 and no value. RESERVEDw_b are the bits of word w from bit b
 * up that AMD reserves: they are carried, and so is every number that AMD reserves in a field. Signed fields (LOD_BIAS, OFFSET_X to _Z) are the
 * numbers that their bits make, from 0 up.
 *
 *  0  5 texture          6 vertex, register    7 vertex, semantic
 *  1  TEX_INST           VTX_INST              VTX_INST
 *  2  BC_FRAC_MODE       FETCH_TYPE            FETCH_TYPE
 *  3  RESERVED0_6        FETCH_WHOLE_QUAD      FETCH_WHOLE_QUAD
 *  4  FETCH_WHOLE_QUAD   BUFFER_ID             BUFFER_ID
 *  5  RESOURCE_ID        SRC_GPR               SRC_GPR
 *  6  SRC_GPR            SRC_REL               SRC_REL
 *  7  SRC_REL            SRC_SEL_X             SRC_SEL_X
 *  8  ALT_CONST          MEGA_FETCH_COUNT      MEGA_FETCH_COUNT
 *  9  RESERVED0_25       DST_GPR               SEMANTIC_ID
 *  10 DST_GPR            DST_REL               RESERVED1_8
 *  11 DST_REL            RESERVED1_8           DST_SEL_X
 *  12 RESERVED1_8        DST_SEL_X             DST_SEL_Y
 *  13 DST_SEL_X          DST_SEL_Y             DST_SEL_Z
 *  14 DST_SEL_Y          DST_SEL_Z             DST_SEL_W
 *  15 DST_SEL_Z          DST_SEL_W             USE_CONST_FIELDS
 *  16 DST_SEL_W          USE_CONST_FIELDS      DATA_FORMAT
 *  17 LOD_BIAS           DATA_FORMAT           NUM_FORMAT_ALL
 *  18 COORD_TYPE_X       NUM_FORMAT_ALL        FORMAT_COMP_ALL
 *  19 COORD_TYPE_Y       FORMAT_COMP_ALL       SRF_MODE_ALL
 *  20 COORD_TYPE_Z       SRF_MODE_ALL          OFFSET
 *  21 COORD_TYPE_W       OFFSET                ENDIAN_SWAP
 *  22 OFFSET_X           ENDIAN_SWAP           CONST_BUF_NO_STRIDE
 *  23 OFFSET_Y           CONST_BUF_NO_STRIDE   MEGA_FETCH
 *  24 OFFSET_Z           MEGA_FETCH            ALT_CONST
 *  25 SAMPLER_ID         ALT_CONST             RESERVED2_21
 *  26 SRC_SEL_X          RESERVED2_21
 *  27 SRC_SEL_Y
 *  28 SRC_SEL_Z
 *  29 SRC_SEL_W */
enum zlatomruk_form {
    ZLATOMRUK_CF_ALU, ZLATOMRUK_CF, ZLATOMRUK_EXPORT, ZLATOMRUK_OP2, ZLATOMRUK_OP3, /* for zlatomruk_encode */
    ZLATOMRUK_TEX = 5, ZLATOMRUK_VTX_GPR = 6, ZLATOMRUK_VTX_SEM = 7 /* for zlatomruk_encode_fetch */
};

/* The two kinds of pairs. */
enum zlatomruk_stream { ZLATOMRUK_CONTROL_FLOW, ZLATOMRUK_ALU };

/* The three kinds of fetches, by the CF_INST of the pair that opens their clause. VTX and VTX_TC have the same forms, 6 and 7. */
enum zlatomruk_fetch_kind { ZLATOMRUK_FETCH_TEX = 1, ZLATOMRUK_FETCH_VTX = 2, ZLATOMRUK_FETCH_VTX_TC = 3 };

/* The elements that a row has to have, whatever its form: the longest form takes 30 of them. */
enum { ZLATOMRUK_VALUES = 32 };

enum zlatomruk_cf_alu_value {
    ZLATOMRUK_CF_ALU_ADDR = 1, ZLATOMRUK_CF_ALU_KCACHE_BANK0, ZLATOMRUK_CF_ALU_KCACHE_BANK1, ZLATOMRUK_CF_ALU_KCACHE_MODE0,
    ZLATOMRUK_CF_ALU_KCACHE_MODE1, ZLATOMRUK_CF_ALU_KCACHE_ADDR0, ZLATOMRUK_CF_ALU_KCACHE_ADDR1, ZLATOMRUK_CF_ALU_COUNT,
    ZLATOMRUK_CF_ALU_ALT_CONST, ZLATOMRUK_CF_ALU_CF_INST, ZLATOMRUK_CF_ALU_WHOLE_QUAD_MODE, ZLATOMRUK_CF_ALU_BARRIER
};

enum zlatomruk_cf_value {
    ZLATOMRUK_CF_ADDR = 1, ZLATOMRUK_CF_POP_COUNT, ZLATOMRUK_CF_CF_CONST, ZLATOMRUK_CF_COND, ZLATOMRUK_CF_COUNT,
    ZLATOMRUK_CF_CALL_COUNT, ZLATOMRUK_CF_BIT_20, ZLATOMRUK_CF_END_OF_PROGRAM, ZLATOMRUK_CF_VALID_PIXEL_MODE,
    ZLATOMRUK_CF_CF_INST, ZLATOMRUK_CF_WHOLE_QUAD_MODE, ZLATOMRUK_CF_BARRIER
};

enum zlatomruk_export_value {
    ZLATOMRUK_EXPORT_ARRAY_BASE = 1, ZLATOMRUK_EXPORT_TYPE, ZLATOMRUK_EXPORT_RW_GPR, ZLATOMRUK_EXPORT_RW_REL,
    ZLATOMRUK_EXPORT_INDEX_GPR, ZLATOMRUK_EXPORT_ELEM_SIZE, ZLATOMRUK_EXPORT_SEL_X, ZLATOMRUK_EXPORT_SEL_Y,
    ZLATOMRUK_EXPORT_SEL_Z, ZLATOMRUK_EXPORT_SEL_W, ZLATOMRUK_EXPORT_BITS_16_12, ZLATOMRUK_EXPORT_BURST_COUNT,
    ZLATOMRUK_EXPORT_END_OF_PROGRAM, ZLATOMRUK_EXPORT_VALID_PIXEL_MODE, ZLATOMRUK_EXPORT_CF_INST,
    ZLATOMRUK_EXPORT_WHOLE_QUAD_MODE, ZLATOMRUK_EXPORT_BARRIER
};

/* Forms 3 and 4 share the low word. */
enum zlatomruk_alu_value {
    ZLATOMRUK_ALU_SRC0_SEL = 1, ZLATOMRUK_ALU_SRC0_REL, ZLATOMRUK_ALU_SRC0_CHAN, ZLATOMRUK_ALU_SRC0_NEG, ZLATOMRUK_ALU_SRC1_SEL,
    ZLATOMRUK_ALU_SRC1_REL, ZLATOMRUK_ALU_SRC1_CHAN, ZLATOMRUK_ALU_SRC1_NEG, ZLATOMRUK_ALU_INDEX_MODE, ZLATOMRUK_ALU_PRED_SEL,
    ZLATOMRUK_ALU_LAST
};

enum zlatomruk_op2_value {
    ZLATOMRUK_OP2_SRC0_ABS = 12, ZLATOMRUK_OP2_SRC1_ABS, ZLATOMRUK_OP2_UPDATE_EXECUTE_MASK, ZLATOMRUK_OP2_UPDATE_PRED,
    ZLATOMRUK_OP2_WRITE_MASK, ZLATOMRUK_OP2_OMOD, ZLATOMRUK_OP2_ALU_INST, ZLATOMRUK_OP2_BANK_SWIZZLE, ZLATOMRUK_OP2_DST_GPR,
    ZLATOMRUK_OP2_DST_REL, ZLATOMRUK_OP2_DST_CHAN, ZLATOMRUK_OP2_CLAMP
};

enum zlatomruk_op3_value {
    ZLATOMRUK_OP3_SRC2_SEL = 12, ZLATOMRUK_OP3_SRC2_REL, ZLATOMRUK_OP3_SRC2_CHAN, ZLATOMRUK_OP3_SRC2_NEG,
    ZLATOMRUK_OP3_ALU_INST, ZLATOMRUK_OP3_BANK_SWIZZLE, ZLATOMRUK_OP3_DST_GPR, ZLATOMRUK_OP3_DST_REL, ZLATOMRUK_OP3_DST_CHAN,
    ZLATOMRUK_OP3_CLAMP
};

enum zlatomruk_tex_value {
    ZLATOMRUK_TEX_TEX_INST = 1, ZLATOMRUK_TEX_BC_FRAC_MODE, ZLATOMRUK_TEX_RESERVED0_6, ZLATOMRUK_TEX_FETCH_WHOLE_QUAD,
    ZLATOMRUK_TEX_RESOURCE_ID, ZLATOMRUK_TEX_SRC_GPR, ZLATOMRUK_TEX_SRC_REL, ZLATOMRUK_TEX_ALT_CONST, ZLATOMRUK_TEX_RESERVED0_25,
    ZLATOMRUK_TEX_DST_GPR, ZLATOMRUK_TEX_DST_REL, ZLATOMRUK_TEX_RESERVED1_8, ZLATOMRUK_TEX_DST_SEL_X, ZLATOMRUK_TEX_DST_SEL_Y,
    ZLATOMRUK_TEX_DST_SEL_Z, ZLATOMRUK_TEX_DST_SEL_W, ZLATOMRUK_TEX_LOD_BIAS, ZLATOMRUK_TEX_COORD_TYPE_X,
    ZLATOMRUK_TEX_COORD_TYPE_Y, ZLATOMRUK_TEX_COORD_TYPE_Z, ZLATOMRUK_TEX_COORD_TYPE_W, ZLATOMRUK_TEX_OFFSET_X,
    ZLATOMRUK_TEX_OFFSET_Y, ZLATOMRUK_TEX_OFFSET_Z, ZLATOMRUK_TEX_SAMPLER_ID, ZLATOMRUK_TEX_SRC_SEL_X, ZLATOMRUK_TEX_SRC_SEL_Y,
    ZLATOMRUK_TEX_SRC_SEL_Z, ZLATOMRUK_TEX_SRC_SEL_W
};

/* Forms 6 and 7 share word 0. */
enum zlatomruk_vtx_value {
    ZLATOMRUK_VTX_VTX_INST = 1, ZLATOMRUK_VTX_FETCH_TYPE, ZLATOMRUK_VTX_FETCH_WHOLE_QUAD, ZLATOMRUK_VTX_BUFFER_ID,
    ZLATOMRUK_VTX_SRC_GPR, ZLATOMRUK_VTX_SRC_REL, ZLATOMRUK_VTX_SRC_SEL_X, ZLATOMRUK_VTX_MEGA_FETCH_COUNT
};

enum zlatomruk_vtx_gpr_value {
    ZLATOMRUK_VTX_GPR_DST_GPR = 9, ZLATOMRUK_VTX_GPR_DST_REL, ZLATOMRUK_VTX_GPR_RESERVED1_8, ZLATOMRUK_VTX_GPR_DST_SEL_X,
    ZLATOMRUK_VTX_GPR_DST_SEL_Y, ZLATOMRUK_VTX_GPR_DST_SEL_Z, ZLATOMRUK_VTX_GPR_DST_SEL_W, ZLATOMRUK_VTX_GPR_USE_CONST_FIELDS,
    ZLATOMRUK_VTX_GPR_DATA_FORMAT, ZLATOMRUK_VTX_GPR_NUM_FORMAT_ALL, ZLATOMRUK_VTX_GPR_FORMAT_COMP_ALL,
    ZLATOMRUK_VTX_GPR_SRF_MODE_ALL, ZLATOMRUK_VTX_GPR_OFFSET, ZLATOMRUK_VTX_GPR_ENDIAN_SWAP,
    ZLATOMRUK_VTX_GPR_CONST_BUF_NO_STRIDE, ZLATOMRUK_VTX_GPR_MEGA_FETCH, ZLATOMRUK_VTX_GPR_ALT_CONST,
    ZLATOMRUK_VTX_GPR_RESERVED2_21
};

enum zlatomruk_vtx_sem_value {
    ZLATOMRUK_VTX_SEM_SEMANTIC_ID = 9, ZLATOMRUK_VTX_SEM_RESERVED1_8, ZLATOMRUK_VTX_SEM_DST_SEL_X, ZLATOMRUK_VTX_SEM_DST_SEL_Y,
    ZLATOMRUK_VTX_SEM_DST_SEL_Z, ZLATOMRUK_VTX_SEM_DST_SEL_W, ZLATOMRUK_VTX_SEM_USE_CONST_FIELDS, ZLATOMRUK_VTX_SEM_DATA_FORMAT,
    ZLATOMRUK_VTX_SEM_NUM_FORMAT_ALL, ZLATOMRUK_VTX_SEM_FORMAT_COMP_ALL, ZLATOMRUK_VTX_SEM_SRF_MODE_ALL, ZLATOMRUK_VTX_SEM_OFFSET,
    ZLATOMRUK_VTX_SEM_ENDIAN_SWAP, ZLATOMRUK_VTX_SEM_CONST_BUF_NO_STRIDE, ZLATOMRUK_VTX_SEM_MEGA_FETCH,
    ZLATOMRUK_VTX_SEM_ALT_CONST, ZLATOMRUK_VTX_SEM_RESERVED2_21
};

/* Decodes the pair at word `start` of `words` (any number) as one of that stream. 0, and the form's values are written; the elements behind them
 * stay as they were. Else nothing is written: 21 where `stream` is above 1, whatever the rest; 2 where the pair does not lie in the words, 4 or 11
 * where its control-flow or ALU number is not taken, 20 where it is and `values` has fewer than 32 elements. */
uint32_t zlatomruk_decode(const uint32_t *words, size_t words_length, size_t start, uint32_t stream, uint32_t *values,
                          size_t values_length);

/* Encodes the record that `values` holds into two words at word `start` of `words` (any number): 0. Else nothing is written: 21 where
 * `values` has fewer than 32 elements, the form is above 4, a value has more bits than its field, or the form has no such number; 20 where
 * two words do not fit. What stands behind the form's last value is not looked at. */
uint32_t zlatomruk_encode(const uint32_t *values, size_t values_length, uint32_t *words, size_t words_length, size_t start);

/* Decodes the four words at word `start` of `words` (any number) as a fetch of that kind. 0, and the form's values are written; the elements
 * behind them stay as they were. Else nothing is written: 21 where `kind` is not 1, 2 or 3, whatever the rest; 2 where the four words do not lie
 * wholly in the words; 8 where that kind does not take the number or word 3 is not 0; 20 where it is a fetch and `values` has fewer than 32
 * elements. */
uint32_t zlatomruk_decode_fetch(const uint32_t *words, size_t words_length, size_t start, uint32_t kind, uint32_t *values,
                                size_t values_length);

/* Encodes the fetch that `values` holds into four words, the last of them 0, at word `start` of `words` (any number): 0. Else nothing is
 * written: 21 where `values` has fewer than 32 elements, the form is not 5, 6 or 7, a value has more bits than its field, or the form has no
 * such number (VTX_INST is 0 in form 6 and 1 in form 7); 20 where four words do not fit. What stands behind the form's last value is not looked
 * at. */
uint32_t zlatomruk_encode_fetch(const uint32_t *values, size_t values_length, uint32_t *words, size_t words_length, size_t start);

#ifdef __cplusplus
}
#endif

#endif
