/* garden.h: what the controller keeps, once in the store and once in a plain notebook to hold it against. */
#ifndef CONTROLLER_GARDEN_H
#define CONTROLLER_GARDEN_H

#include "store.h"

enum { BEDS = 12, KEPT = 6 };

/* An integer's bounds: a limit that no moisture is below, and one that every other moisture is below. */
#define LEAST INT32_C(-1073741824)
#define GREATEST INT32_C(1073741823)

/* What the slots are for. Nothing else is kept from one call to the next, so a collection may come at any of them. */
enum { GARDEN, RULES, BED, MADE, NUMBER, LINK, LAST_READING, LOOK, LOOK_IN, LOOK_AT };

/* The fields of a bed, of a reading and of a rule, and the words of a calibration. */
enum { MOISTURE, CALIBRATION, NEIGHBOUR, READINGS, BED_FIELDS };
enum { VALUE, OLDER, READING_FIELDS };
enum { LIMIT, OPENED, RULE_BED, NEXT, RULE_FIELDS };
enum { GAIN, OFFSET, SERIAL, CALIBRATION_WORDS };

struct notebook {
    int32_t moisture[BEDS];
    uint32_t calibration[BEDS][CALIBRATION_WORDS];
    int32_t readings[BEDS][KEPT]; /* the newest first */
    uint32_t kept[BEDS];
    int32_t limit[BEDS], opened[BEDS];
    uint32_t first_rule; /* the bed of the chain's first rule; the beds after it follow */
    int32_t last_reading;
};

struct garden {
    struct store store;
    struct notebook book;
    unsigned without_room, faults, readings;
};

void plant(struct garden *g);
void take_reading(struct garden *g, uint32_t bed, uint32_t probe);
void calibrate(struct garden *g, uint32_t bed, float gain, float offset, uint32_t serial);
void chain_rules(struct garden *g, uint32_t first);
void follow_rules(struct garden *g);

/* Collects, and then holds the whole store against the notebook, call by call. */
void tidy(struct garden *g);
void agree(struct garden *g);

#endif
