/* agree.c: the whole store held against the notebook by store calls alone. */
#include "garden.h"

static void want_integer(struct store *s, uint32_t slot, int32_t value) {
    struct shown shown = ask(s, slot);
    want("what a slot with an integer holds", shown.held, INTEGER);
    want("an integer", (uint64_t)shown.number, (uint64_t)(int64_t)value);
}

static void want_object(struct store *s, uint32_t slot, enum held kind, int64_t count) {
    struct shown shown = ask(s, slot);
    want("the kind of an object", shown.held, kind);
    want("the count of an object", (uint64_t)shown.number, (uint64_t)count);
}

static void want_field(struct store *s, uint32_t object, uint32_t field, int32_t value) {
    read_field(s, object, field, LOOK_AT);
    want_integer(s, LOOK_AT, value);
}

static void agree_readings(struct garden *g, uint32_t bed) {
    struct store *s = &g->store;
    read_field(s, LOOK, READINGS, LOOK_IN);
    for (uint32_t i = 0; i < g->book.kept[bed]; i++) {
        want_object(s, LOOK_IN, RECORD, READING_FIELDS);
        want_field(s, LOOK_IN, VALUE, g->book.readings[bed][i]);
        read_field(s, LOOK_IN, OLDER, LOOK_IN);
    }
    want("the end of the readings", ask(s, LOOK_IN).held, NOTHING);
}

static void agree_bed(struct garden *g, uint32_t bed) {
    struct store *s = &g->store;
    read_field(s, GARDEN, bed, LOOK);
    want_object(s, LOOK, RECORD, BED_FIELDS);
    want_field(s, LOOK, MOISTURE, g->book.moisture[bed]);
    read_field(s, LOOK, CALIBRATION, LOOK_IN);
    want_object(s, LOOK_IN, RAW, CALIBRATION_WORDS);
    for (uint32_t i = 0; i < CALIBRATION_WORDS; i++) {
        want("a calibration word", read_raw(s, LOOK_IN, i), g->book.calibration[bed][i]);
    }
    agree_readings(g, bed);
    read_field(s, LOOK, NEIGHBOUR, LOOK_IN);
    read_field(s, GARDEN, (bed + 1) % BEDS, LOOK_AT);
    want("whether the neighbour is the same bed", (uint64_t)same(s, LOOK_IN, LOOK_AT), 1);
}

static void agree_rules(struct garden *g) {
    struct store *s = &g->store;
    copy(s, RULES, LOOK);
    for (uint32_t i = 0; i < BEDS; i++) {
        uint32_t bed = (g->book.first_rule + i) % BEDS;
        want_object(s, LOOK, RECORD, RULE_FIELDS);
        want_field(s, LOOK, LIMIT, g->book.limit[bed]);
        want_field(s, LOOK, OPENED, g->book.opened[bed]);
        read_field(s, LOOK, RULE_BED, LOOK_IN);
        read_field(s, GARDEN, bed, LOOK_AT);
        want("whether a rule's bed is the same bed", (uint64_t)same(s, LOOK_IN, LOOK_AT), 1);
        read_field(s, LOOK, NEXT, LOOK);
    }
    want("the end of the rules", ask(s, LOOK).held, NOTHING);
}

void agree(struct garden *g) {
    struct store *s = &g->store;
    want_object(s, GARDEN, RECORD, BEDS);
    want_integer(s, LAST_READING, g->book.last_reading);
    for (uint32_t bed = 0; bed < BEDS; bed++) {
        agree_bed(g, bed);
    }
    agree_rules(g);
    /* What was looked at is let go, or it would be kept by the next collection. */
    put_nil(s, LOOK);
    put_nil(s, LOOK_IN);
    put_nil(s, LOOK_AT);
}
