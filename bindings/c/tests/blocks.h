/* What the tests of recordings share: the steps that the blocks of a file have, by a sum of their own. */
#ifndef BLOCKS_H
#define BLOCKS_H

#include "check.h"
#include <string.h>

/* The CRC-32 of bytes, bit by bit, from that of the bytes before them. */
static inline uint32_t sum_after(uint32_t sum, const uint8_t *bytes, size_t n) {
    sum = ~sum;
    for (size_t i = 0; i < 8 * n; i++) {
        uint32_t bit = (sum ^ (CBS_CAST(uint32_t, bytes[i / 8]) >> (i % 8))) & 1;
        sum = (sum >> 1) ^ (0xEDB88320U * bit);
    }
    return ~sum;
}

/* Reads the steps of blocks, after bytes of this sum. Each has to be right; one that is cut is left out. Returns how many bytes the
 * steps have, which are left at `steps`. */
static inline size_t steps_after(uint32_t sum, const uint8_t *blocks, size_t length, uint8_t *steps) {
    size_t found = 0;
    for (size_t at = 0; at + 8 <= length;) {
        const uint8_t *block = blocks + at;
        size_t n = block[0] + 256U * block[1] + 65536U * block[2];
        CHECK((block[0] ^ block[1] ^ block[2] ^ block[3]) == 255);
        if (at + n + 8 > length) {
            break;
        }
        sum = sum_after(sum, block, 4 + n);
        for (size_t i = 0; i < 4; i++) {
            CHECK(block[4 + n + i] == ((sum >> (8 * i)) & 255));
        }
        memcpy(steps + found, block + 4, n);
        found += n;
        at += n + 8;
    }
    return found;
}

/* The same of the blocks of a file with a text of so many bytes, the one that ends it among them. */
static inline size_t steps_in(const uint8_t *file, size_t length, size_t text, uint8_t *steps) {
    CHECK(length >= text && file[text - 1] == 3);
    return steps_after(sum_after(0, file, text), file + text, length - text, steps);
}

#endif
