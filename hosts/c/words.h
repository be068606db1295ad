/* words.h: heap words and bitmaps as hasurimba.h describes them, for marking and for the comparison. */
#ifndef CONTROLLER_WORDS_H
#define CONTROLLER_WORDS_H

#include <stdint.h>

#define NIL UINT32_C(4294967295)

static inline int is_integer(uint32_t word) {
    return word % 2 == 0;
}

static inline int is_reference(uint32_t word) {
    return word % 2 == 1 && word != NIL;
}

static inline uint32_t place_of(uint32_t word) {
    return (word - 1) / 2;
}

static inline uint32_t payload_of(uint32_t header) {
    return header / 4;
}

static inline int is_record(uint32_t header) {
    return header % 4 == 0;
}

static inline int bit_at(const uint64_t *bitmap, uint32_t place) {
    return (int)(bitmap[place / 64] >> (place % 64) & 1);
}

static inline void set_bit(uint64_t *bitmap, uint32_t place) {
    bitmap[place / 64] |= UINT64_C(1) << (place % 64);
}

static inline uint32_t ones(uint64_t word) {
    uint32_t count = 0;
    for (; word != 0; word &= word - 1) {
        count++;
    }
    return count;
}

#endif
