/* controller.c: a season of a watering controller that keeps all it knows in the store. */
#include <stdio.h>
#include <string.h>

#include "garden.h"

enum { ROUNDS = 400 };

/* The same numbers on every machine. */
static uint32_t draw(uint32_t *state, uint32_t below) {
    *state = *state * 1664525u + 1013904223u;
    return (*state >> 8) % below;
}

/* Gains and offsets whose bits are even and odd words, and serial numbers that look like references. */
static void calibrate_all(struct garden *g, uint32_t round) {
    static const float gains[] = {0.1f, 0.125f, 0.3f, 0.07f}, offsets[] = {-40.0f, -12.1f, -90.3f, 0.0f};
    for (uint32_t bed = 0; bed < BEDS; bed++) {
        calibrate(g, bed, gains[(bed + round) % 4], offsets[(bed * 3 + round) % 4], 2 * ((bed * 37 + round) % 400) + 1);
    }
}

/* A probe gives 0 to 1023; a broken one gives all ones, which the highest gain makes too great for an integer. */
static void read_all(struct garden *g, uint32_t round, uint32_t *state) {
    uint32_t times = round % 20 == 19 ? 24 : 1;
    for (uint32_t i = 0; i < times * BEDS; i++) {
        int broken = round % 64 == 5 && i < 4;
        uint32_t probe = draw(state, 1024);
        take_reading(g, i % BEDS, broken ? UINT32_MAX : probe);
    }
}

static void run_rounds(struct garden *g) {
    uint32_t state = 1;
    for (uint32_t round = 0; round < ROUNDS; round++) {
        if (round % 16 == 0) {
            calibrate_all(g, round / 16);
        }
        if (round % 10 == 9) {
            chain_rules(g, round / 10 % BEDS);
        }
        read_all(g, round, &state);
        follow_rules(g);
        tidy(g);
    }
}

/* A refused call answers number + 256 * place, and leaves the whole store as it found it. */
static void refused(const struct store *before, const struct store *s, uint64_t answer, unsigned number,
                    unsigned place) {
    want("a refusal", answer, number + UINT64_C(256) * place);
    want("a word changed by a refusal", (uint64_t)(memcmp(before, s, sizeof *s) != 0), 0);
    printf("refused %u at %u\n", number, place);
}

static void show_refusals(struct garden *g) {
    static struct store before;
    struct store *s = &g->store;
    uint64_t out[4];
    read_field(s, GARDEN, 2, BED);
    read_field(s, BED, CALIBRATION, LINK);
    memcpy(&before, s, sizeof before);
    refused(&before, s, hasurimba_put_nil(STORE(s), SLOTS), REFUSED_SLOT, SLOTS);
    refused(&before, s, hasurimba_read_field(STORE(s), LINK, GAIN, NUMBER), REFUSED_KIND, LINK);
    refused(&before, s, hasurimba_read_raw(STORE(s), BED, 0, out), REFUSED_KIND, BED);
    refused(&before, s, hasurimba_write_field(STORE(s), BED, BED_FIELDS, NUMBER), REFUSED_FIELD, BED_FIELDS);
    refused(&before, s, hasurimba_put_integer(STORE(s), NUMBER, GREATEST + 1), REFUSED_INTEGER, 0);
    refused(&before, s, hasurimba_new_raw(STORE(s), MADE, 1024), REFUSED_SIZE, 0);
    refused(&before, s, hasurimba_new_record(STORE(s), MADE, 1023), REFUSED_NO_ROOM, 0);
}

static void summarize(const struct garden *g) {
    const struct store *s = &g->store;
    printf("%d rounds, %u readings, %u from a broken probe refused\n", ROUNDS, g->readings, g->faults);
    printf("%u collections, %u for want of room, %u in another order than ascending\n", s->collections, g->without_room,
           s->other_orders);
    printf("compared: %lu integers, %lu nils, %lu references, %lu raw words\n", s->seen.integers, s->seen.nils,
           s->seen.references, s->seen.raw_words);
    printf("moisture:");
    for (int bed = 0; bed < BEDS; bed++) {
        printf(" %ld", (long)g->book.moisture[bed]);
    }
    printf("\nwatered:");
    for (int bed = 0; bed < BEDS; bed++) {
        printf(" %ld", (long)g->book.opened[bed]);
    }
    printf("\ntop %llu, calls %llu\n", (unsigned long long)s->record[0], (unsigned long long)s->record[1]);
}

int main(void) {
    static struct garden garden;
    plant(&garden);
    run_rounds(&garden);
    show_refusals(&garden);
    summarize(&garden);
    return 0;
}
