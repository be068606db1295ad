/* store.c: the store calls that have to be accepted here; a refused one ends the program. */
#include <stdio.h>
#include <stdlib.h>
#include <string.h>

#include "store.h"
#include "words.h"

_Noreturn void wrong(const char *what, uint64_t got, uint64_t wanted) {
    fprintf(stderr, "wrong: %s: %llu, not %llu\n", what, (unsigned long long)got, (unsigned long long)wanted);
    exit(1);
}

void want(const char *what, uint64_t got, uint64_t wanted) {
    if (got != wanted) {
        wrong(what, got, wanted);
    }
}

void open_store(struct store *s) {
    memset(s, 0, sizeof *s);
    for (int i = 0; i < SLOTS; i++) {
        s->roots[i] = NIL;
    }
    /* The heap of a new store may hold anything: here odd words, which would be references. */
    for (int i = 0; i < HEAP_WORDS; i++) {
        s->heap[i] = 9;
    }
}

struct shown ask(struct store *s, uint32_t slot) {
    uint64_t out[4] = {0};
    want("asking a slot", hasurimba_ask(STORE(s), slot, out), 0);
    return (struct shown){(enum held)out[0], (int64_t)out[1]};
}

int same(struct store *s, uint32_t first, uint32_t second) {
    uint64_t out[4] = {0};
    want("comparing two slots", hasurimba_same(STORE(s), first, second, out), 0);
    return out[0] == 1;
}

void put_integer(struct store *s, uint32_t slot, int32_t value) {
    want("putting an integer", hasurimba_put_integer(STORE(s), slot, value), 0);
}

void put_nil(struct store *s, uint32_t slot) {
    want("putting nil", hasurimba_put_nil(STORE(s), slot), 0);
}

void copy(struct store *s, uint32_t source, uint32_t target) {
    want("copying a slot", hasurimba_copy(STORE(s), source, target), 0);
}

void read_field(struct store *s, uint32_t object, uint32_t field, uint32_t target) {
    want("reading a field", hasurimba_read_field(STORE(s), object, field, target), 0);
}

void write_field(struct store *s, uint32_t object, uint32_t field, uint32_t source) {
    want("writing a field", hasurimba_write_field(STORE(s), object, field, source), 0);
}

void write_integer(struct store *s, uint32_t object, uint32_t field, int32_t value, uint32_t scratch) {
    put_integer(s, scratch, value);
    write_field(s, object, field, scratch);
}

int32_t read_integer(struct store *s, uint32_t object, uint32_t field, uint32_t scratch) {
    read_field(s, object, field, scratch);
    struct shown shown = ask(s, scratch);
    want("what a field with an integer holds", shown.held, INTEGER);
    return (int32_t)shown.number;
}

uint32_t read_raw(struct store *s, uint32_t object, uint32_t index) {
    uint64_t out[4] = {0};
    want("reading a raw word", hasurimba_read_raw(STORE(s), object, index, out), 0);
    return (uint32_t)out[0];
}

void write_raw(struct store *s, uint32_t object, uint32_t index, uint32_t word) {
    want("writing a raw word", hasurimba_write_raw(STORE(s), object, index, word), 0);
}
