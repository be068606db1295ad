/* collect.c: marks, a block order, and one collection with every word compared. */
#include <string.h>

#include "picture.h"
#include "store.h"
#include "words.h"

/* Places of marked objects whose fields are still to be looked at; each object is put there once. */
struct pending {
    uint32_t places[HEAP_WORDS];
    size_t height;
};

static void reach(struct store *s, struct pending *pending, uint32_t word) {
    if (is_reference(word) && !bit_at(s->marks, place_of(word))) {
        set_bit(s->marks, place_of(word));
        pending->places[pending->height++] = place_of(word);
    }
}

static void mark(struct store *s) {
    struct pending pending = {.height = 0};
    memset(s->marks, 0, sizeof s->marks);
    for (int i = 0; i < SLOTS; i++) {
        reach(s, &pending, s->roots[i]);
    }
    while (pending.height > 0) {
        uint32_t place = pending.places[--pending.height];
        uint32_t fields = is_record(s->heap[place]) ? payload_of(s->heap[place]) : 0;
        for (uint32_t i = 1; i <= fields; i++) {
            reach(s, &pending, s->heap[place + i]);
        }
    }
}

/* Step t may run once every other step that a live word of block t goes to is done. */
static int ready(const struct store *s, const int *done, uint32_t t) {
    uint32_t words = ones(s->live[t]);
    if (words == 0) {
        return 1;
    }
    uint32_t first = s->offsets[t] / 64, last = (s->offsets[t] + words - 1) / 64;
    return (first == t || done[first]) && (last == t || done[last]);
}

/* The highest step that is ready comes first: as far from ascending order as the rule lets it be. */
static void latest_first(const struct store *s, uint32_t *order, uint32_t steps) {
    int done[BLOCKS] = {0};
    for (uint32_t i = 0; i < steps; i++) {
        uint32_t t = steps - 1;
        while (done[t] || !ready(s, done, t)) {
            t--;
        }
        done[t] = 1;
        order[i] = t;
    }
}

static void ascending(uint32_t *order, uint32_t steps) {
    for (uint32_t t = 0; t < steps; t++) {
        order[t] = t;
    }
}

static uint64_t run(struct store *s, const uint32_t *order, uint32_t steps, uint64_t out[4]) {
    return hasurimba_store_collect(STORE(s), s->marks, BLOCKS, order, steps, s->live, BLOCKS, s->offsets, BLOCKS, out);
}

/* Every second collection takes another order than ascending, where there is one. */
static void choose(struct store *s, uint32_t *order, uint32_t steps) {
    uint64_t out[4];
    ascending(order, steps);
    if (steps == 0 || s->collections % 2 == 0) {
        return;
    }
    /* An empty order is refused, but fills in the two tables that the choice needs. */
    want("a collection without an order", run(s, order, 0, out), REFUSED_ORDER);
    latest_first(s, order, steps);
    for (uint32_t i = 0; i < steps; i++) {
        if (order[i] != i) {
            s->other_orders++;
            return;
        }
    }
}

void collect(struct store *s) {
    static struct picture before;
    uint32_t order[BLOCKS];
    uint64_t found[4], out[4];
    mark(s);
    uint32_t top = (uint32_t)s->record[0];
    want("the check", hasurimba_check(s->heap, HEAP_WORDS, top, s->roots, SLOTS, s->marks, BLOCKS, found), 0);
    take_picture(&before, s);
    want("the number of live words", found[0], before.words);
    want("the number of marked objects", found[1], before.objects);
    uint32_t steps = (before.words + 63) / 64;
    choose(s, order, steps);
    want("the collection", run(s, order, steps, out), 0);
    want("the new top", out[0], before.words);
    want("the top in the record", s->record[0], before.words);
    want("the number of objects kept", out[1], before.objects);
    want("the number of blocks", out[2], steps);
    compare_picture(&before, s);
    s->collections++;
}
