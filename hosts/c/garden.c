/* garden.c: beds, readings, calibrations and rules as objects of the store. */
#include <string.h>

#include "garden.h"

void tidy(struct garden *g) {
    collect(&g->store);
    agree(g);
}

typedef uint64_t maker(uint64_t *, uint32_t *, size_t, uint32_t *, size_t, uint32_t, uint32_t);

/* No room is no mistake: what nothing refers to any more is dropped, and the call made again. */
static void make(struct garden *g, maker *new_object, uint32_t slot, uint32_t k) {
    uint64_t answer = new_object(STORE(&g->store), slot, k);
    if (answer == REFUSED_NO_ROOM) {
        g->without_room++;
        tidy(g);
        answer = new_object(STORE(&g->store), slot, k);
    }
    want("making an object", answer, 0);
}

static void make_bed(struct garden *g, uint32_t bed) {
    struct store *s = &g->store;
    make(g, hasurimba_new_record, MADE, BED_FIELDS);
    write_integer(s, MADE, MOISTURE, 0, NUMBER);
    write_field(s, GARDEN, bed, MADE);
    calibrate(g, bed, 1.0f, 0.0f, 0);
}

void plant(struct garden *g) {
    struct store *s = &g->store;
    memset(g, 0, sizeof *g);
    open_store(s);
    make(g, hasurimba_new_record, GARDEN, BEDS);
    for (uint32_t bed = 0; bed < BEDS; bed++) {
        make_bed(g, bed);
        g->book.limit[bed] = (int32_t)bed - 4;
    }
    g->book.limit[0] = LEAST;
    g->book.limit[BEDS - 1] = GREATEST;
    /* The beds lie in a ring, so their references do as well. */
    for (uint32_t bed = 0; bed < BEDS; bed++) {
        read_field(s, GARDEN, bed, BED);
        read_field(s, GARDEN, (bed + 1) % BEDS, LINK);
        write_field(s, BED, NEIGHBOUR, LINK);
    }
    put_integer(s, LAST_READING, 0);
    chain_rules(g, 0);
}

void calibrate(struct garden *g, uint32_t bed, float gain, float offset, uint32_t serial) {
    struct store *s = &g->store;
    uint32_t *words = g->book.calibration[bed];
    make(g, hasurimba_new_raw, MADE, CALIBRATION_WORDS);
    memcpy(&words[GAIN], &gain, sizeof gain);
    memcpy(&words[OFFSET], &offset, sizeof offset);
    words[SERIAL] = serial;
    for (uint32_t i = 0; i < CALIBRATION_WORDS; i++) {
        write_raw(s, MADE, i, words[i]);
    }
    read_field(s, GARDEN, bed, BED);
    write_field(s, BED, CALIBRATION, MADE);
}

/* Two roundings, one to a statement, so that every machine gets the same moisture. */
static int32_t moisture_of(struct store *s, uint32_t probe) {
    float gain, offset;
    uint32_t gain_bits = read_raw(s, LINK, GAIN), offset_bits = read_raw(s, LINK, OFFSET);
    memcpy(&gain, &gain_bits, sizeof gain);
    memcpy(&offset, &offset_bits, sizeof offset);
    float scaled = (float)probe * gain;
    float moisture = scaled + offset;
    return (int32_t)moisture;
}

/* Cuts the list of readings after the newest, so that the rest can be dropped. */
static void forget_old(struct store *s) {
    copy(s, MADE, LINK);
    for (int i = 1; i < KEPT && ask(s, LINK).held == RECORD; i++) {
        read_field(s, LINK, OLDER, LINK);
    }
    if (ask(s, LINK).held == RECORD) {
        put_nil(s, NUMBER);
        write_field(s, LINK, OLDER, NUMBER);
    }
}

static void note_reading(struct notebook *book, uint32_t bed, int32_t moisture) {
    int32_t *readings = book->readings[bed];
    memmove(readings + 1, readings, (KEPT - 1) * sizeof *readings);
    readings[0] = moisture;
    book->kept[bed] += book->kept[bed] < KEPT;
    book->moisture[bed] = book->last_reading = moisture;
}

void take_reading(struct garden *g, uint32_t bed, uint32_t probe) {
    struct store *s = &g->store;
    read_field(s, GARDEN, bed, BED);
    read_field(s, BED, CALIBRATION, LINK);
    int32_t moisture = moisture_of(s, probe);
    uint64_t answer = hasurimba_put_integer(STORE(s), NUMBER, moisture);
    if (answer == REFUSED_INTEGER) { /* a broken probe: the bed keeps what it has */
        g->faults++;
        return;
    }
    want("putting a reading", answer, 0);
    make(g, hasurimba_new_record, MADE, READING_FIELDS);
    write_field(s, MADE, VALUE, NUMBER);
    write_field(s, BED, MOISTURE, NUMBER);
    copy(s, NUMBER, LAST_READING);
    read_field(s, BED, READINGS, LINK);
    write_field(s, MADE, OLDER, LINK);
    write_field(s, BED, READINGS, MADE);
    forget_old(s);
    note_reading(&g->book, bed, moisture);
    g->readings++;
}

/* The new chain grows from its end in slot LINK; the old one stays whole until it is done. */
void chain_rules(struct garden *g, uint32_t first) {
    struct store *s = &g->store;
    put_nil(s, LINK);
    for (uint32_t left = BEDS; left > 0; left--) {
        uint32_t bed = (first + left - 1) % BEDS;
        make(g, hasurimba_new_record, MADE, RULE_FIELDS);
        read_field(s, GARDEN, bed, BED);
        write_integer(s, MADE, LIMIT, g->book.limit[bed], NUMBER);
        write_integer(s, MADE, OPENED, g->book.opened[bed], NUMBER);
        write_field(s, MADE, RULE_BED, BED);
        write_field(s, MADE, NEXT, LINK);
        copy(s, MADE, LINK);
    }
    copy(s, LINK, RULES);
    g->book.first_rule = first;
}

/* Waters each bed whose moisture is below its rule's limit, and counts that in the rule. */
void follow_rules(struct garden *g) {
    struct store *s = &g->store;
    uint32_t bed = g->book.first_rule;
    for (copy(s, RULES, LINK); ask(s, LINK).held == RECORD; read_field(s, LINK, NEXT, LINK)) {
        read_field(s, LINK, RULE_BED, BED);
        if (read_integer(s, BED, MOISTURE, NUMBER) < read_integer(s, LINK, LIMIT, NUMBER)) {
            int32_t opened = read_integer(s, LINK, OPENED, NUMBER) + 1;
            write_integer(s, LINK, OPENED, opened, NUMBER);
            g->book.opened[bed] = opened;
        }
        bed = (bed + 1) % BEDS;
    }
}
