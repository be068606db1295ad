/* picture.h: a heap before its collection, to hold the heap after it against. */
#ifndef CONTROLLER_PICTURE_H
#define CONTROLLER_PICTURE_H

#include "store.h"

struct picture {
    uint32_t heap[HEAP_WORDS];
    uint32_t roots[SLOTS];
    uint32_t top;
    uint32_t words, objects;      /* of the marked objects */
    uint32_t places[HEAP_WORDS];  /* of marked object i, from the lowest on */
    uint32_t numbers[HEAP_WORDS]; /* the i of the marked object at a place */
};

void take_picture(struct picture *p, const struct store *s);

/* Ends the program unless every kept word is what it was; a reference is where it refers to the same object. */
void compare_picture(const struct picture *before, struct store *s);

#endif
