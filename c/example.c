/* A module of one passive data segment, the byte 41: prints document 01's whole case. Answers 1 if an entry refuses. */
#include "thriftbell.h"
#include <stdio.h>

enum { SEGMENTS = 1, PASSIVE = 0, ROOM = 64 };

int main(void) {
    const uint8_t text[] = {0x41};
    const uint32_t words[] = {THRIFTBELL_SECTION_DATA, PASSIVE, 0, 0, 0, 0, sizeof text};
    const uint8_t order[] = {THRIFTBELL_SECTION_DATA_COUNT, THRIFTBELL_SECTION_DATA};
    uint8_t store[ROOM], module[ROOM];
    size_t used = 0, length;
    uint32_t answer = thriftbell_add(&used, store, sizeof store, words, sizeof words / sizeof *words, text, sizeof text);
    if (answer != THRIFTBELL_OK) return 1;
    answer = thriftbell_finish(used, store, sizeof store, order, sizeof order, SEGMENTS, module, sizeof module, &length);
    if (answer != THRIFTBELL_OK) return 1;
    for (size_t i = 0; i < length; i++) printf("%02X", module[i]);
    printf("\n");
    return 0;
}
