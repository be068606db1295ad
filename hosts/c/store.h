/* store.h: the store as this controller keeps it; all memory is here, the library has none of its own. */
#ifndef CONTROLLER_STORE_H
#define CONTROLLER_STORE_H

#include "hasurimba.h"

enum { HEAP_WORDS = 1024, BLOCKS = (HEAP_WORDS + 63) / 64, SLOTS = 10 };

/* The refusals that this controller meets. */
enum {
    REFUSED_ORDER = 6,
    REFUSED_SLOT = 7,
    REFUSED_KIND = 8,
    REFUSED_FIELD = 9,
    REFUSED_INTEGER = 10,
    REFUSED_NO_ROOM = 11,
    REFUSED_SIZE = 12
};

/* What hasurimba_ask says in its first word. */
enum held { INTEGER, NOTHING, RECORD, RAW };

struct shown {
    enum held held;
    int64_t number; /* an integer's value, or an object's count */
};

/* How many words were compared over a collection, by what they are. */
struct seen {
    unsigned long integers, nils, references, raw_words;
};

struct store {
    uint64_t record[8];
    uint32_t heap[HEAP_WORDS];
    uint32_t roots[SLOTS];
    uint64_t marks[BLOCKS];
    uint64_t live[BLOCKS];
    uint32_t offsets[BLOCKS];
    unsigned collections, other_orders;
    struct seen seen;
};

/* The five arguments that every store call begins with. */
#define STORE(s) (s)->record, (s)->heap, HEAP_WORDS, (s)->roots, SLOTS

_Noreturn void wrong(const char *what, uint64_t got, uint64_t wanted);
void want(const char *what, uint64_t got, uint64_t wanted);

void open_store(struct store *s);
struct shown ask(struct store *s, uint32_t slot);
int same(struct store *s, uint32_t first, uint32_t second);
void put_integer(struct store *s, uint32_t slot, int32_t value);
void put_nil(struct store *s, uint32_t slot);
void copy(struct store *s, uint32_t source, uint32_t target);
void read_field(struct store *s, uint32_t object, uint32_t field, uint32_t target);
void write_field(struct store *s, uint32_t object, uint32_t field, uint32_t source);
void write_integer(struct store *s, uint32_t object, uint32_t field, int32_t value, uint32_t scratch);
int32_t read_integer(struct store *s, uint32_t object, uint32_t field, uint32_t scratch);
uint32_t read_raw(struct store *s, uint32_t object, uint32_t index);
void write_raw(struct store *s, uint32_t object, uint32_t index, uint32_t word);

/* Marks what the slots reach, collects, and compares every word with what was there before. */
void collect(struct store *s);

#endif
