/* picture.c: the comparison over a collection, from the heap's words alone and without the library's tables. */
#include <string.h>

#include "picture.h"
#include "words.h"

void take_picture(struct picture *p, const struct store *s) {
    memcpy(p->heap, s->heap, sizeof p->heap);
    memcpy(p->roots, s->roots, sizeof p->roots);
    p->top = (uint32_t)s->record[0];
    p->words = p->objects = 0;
    for (uint32_t place = 0; place < p->top; place += 1 + payload_of(p->heap[place])) {
        if (bit_at(s->marks, place)) {
            p->numbers[place] = p->objects;
            p->places[p->objects++] = place;
            p->words += 1 + payload_of(p->heap[place]);
        }
    }
}

/* The new places of the kept objects: they stand end to end in the order they had. */
static void slide(const struct picture *before, uint32_t *new_places) {
    uint32_t place = 0;
    for (uint32_t i = 0; i < before->objects; i++) {
        new_places[i] = place;
        place += 1 + payload_of(before->heap[before->places[i]]);
    }
}

static void compare_value(const struct picture *before, struct seen *seen, const uint32_t *new_places, uint32_t old,
                          uint32_t new) {
    if (is_integer(old)) {
        want("an integer after the collection", new, old);
        seen->integers++;
    } else if (old == NIL) {
        want("nil after the collection", new, old);
        seen->nils++;
    } else {
        want("whether a reference is still one", (uint64_t)is_reference(new), 1);
        want("the place of a reference", place_of(new), new_places[before->numbers[place_of(old)]]);
        seen->references++;
    }
}

static void compare_object(const struct picture *before, struct store *s, const uint32_t *new_places, uint32_t i) {
    const uint32_t *old = before->heap + before->places[i], *new = s->heap + new_places[i];
    want("the kind and count of an object", new[0], old[0]);
    for (uint32_t j = 1; j <= payload_of(old[0]); j++) {
        if (is_record(old[0])) {
            compare_value(before, &s->seen, new_places, old[j], new[j]);
        } else {
            want("a raw word after the collection", new[j], old[j]);
            s->seen.raw_words++;
        }
    }
}

/* Both lookups lead from an object's old place to its new one and back. */
static void compare_lookups(const struct store *s, uint32_t old, uint32_t new) {
    uint64_t out[4];
    want("looking up an old place", hasurimba_old_to_new(s->live, BLOCKS, s->offsets, BLOCKS, old, out), 0);
    want("whether an old place is live", out[0], 1);
    want("the new place of an old one", out[1], new);
    want("looking up a new place", hasurimba_new_to_old(s->live, BLOCKS, s->offsets, BLOCKS, new, out), 0);
    want("whether a new place has an old one", out[0], 1);
    want("the old place of a new one", out[1], old);
}

void compare_picture(const struct picture *before, struct store *s) {
    static uint32_t new_places[HEAP_WORDS];
    slide(before, new_places);
    for (int i = 0; i < SLOTS; i++) {
        compare_value(before, &s->seen, new_places, before->roots[i], s->roots[i]);
    }
    for (uint32_t i = 0; i < before->objects; i++) {
        compare_object(before, s, new_places, i);
        compare_lookups(s, before->places[i], new_places[i]);
    }
    for (uint32_t place = before->words; place < HEAP_WORDS; place++) {
        want("a word above the new top", s->heap[place], place < before->top ? 0 : before->heap[place]);
    }
    for (int i = 0; i < BLOCKS; i++) {
        want("a mark after the collection", s->marks[i], 0);
    }
}
