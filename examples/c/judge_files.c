/* judge_files CARD PACK: judges a pack's file by a card's, as the cabin does before it loads a pack. Exits 0 exactly if the pack is released. */
#include <stdio.h>

#include "zlatomruk.h"

/* One byte more than any card or pack has: what is longer is refused as it would be whole. */
static uint8_t card[ZLATOMRUK_CARD_LENGTH + 1], pack[8 * 8192 + 1];

/* How many bytes of a file are in `bytes`; -1 if it can't be read. */
static long read_file(const char *name, uint8_t *bytes, size_t most) {
    FILE *file = fopen(name, "rb");
    size_t length = file == NULL ? 0 : fread(bytes, 1, most, file);
    int failed = file == NULL || ferror(file);
    if (file != NULL) fclose(file);
    if (failed) fprintf(stderr, "cannot be read: %s\n", name);
    return failed ? -1 : (long)length;
}

int main(int count, char **arguments) {
    long card_length, pack_length;
    uint64_t answer;
    if (count != 3) {
        fprintf(stderr, "usage: judge_files CARD PACK\n");
        return 2;
    }
    card_length = read_file(arguments[1], card, sizeof card);
    pack_length = read_file(arguments[2], pack, sizeof pack);
    if (card_length < 0 || pack_length < 0) return 2;
    answer = zlatomruk_judge_files(card, (size_t)card_length, pack, (size_t)pack_length);
    printf("verdict %u, place %u, slot %u: %s\n", zlatomruk_number(answer), zlatomruk_place(answer), zlatomruk_slot(answer),
           zlatomruk_released(answer) ? "released" : "not released");
    return zlatomruk_released(answer) ? 0 : 1;
}
