/* Judges document 01's copy pack from C, once by a card that grants it two registers and once by one that grants it one. */
#include <stdio.h>

#include "zlatomruk.h"

static const uint32_t copy_pack[] = {0x00000002, 0xA0000000, 0x00000000, 0x00200000, 0x80000000, 0x00200C90};

static int judge(const char *gprs) {
    char card[128];
    int length = snprintf(card, sizeof card,
                          "kind=ps\nbuild=production\n%s\ntemps=0\nconsts=0\nstack=0\nquads=3\n", gprs);
    uint64_t verdict = zlatomruk_judge((const uint8_t *)card, (size_t)length, copy_pack, 6);
    printf("%s: verdict %u, place %u, slot %u\n", gprs, zlatomruk_number(verdict), zlatomruk_place(verdict), zlatomruk_slot(verdict));
    return (int)zlatomruk_number(verdict);
}

int main(void) {
    return judge("gprs=2") == 0 && judge("gprs=1") == 15 ? 0 : 1;
}
