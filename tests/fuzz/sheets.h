/* Sheets to try, all from a seeded generator of random numbers, so that each can be made again. */
#ifndef SHEETS_H
#define SHEETS_H

#include <stddef.h>
#include <stdint.h>

#define ROOM 4096 /* no sheet made here has more bytes */

struct random {
    uint64_t state;
};

/* The generator for sheet `number` of a seed: each sheet can be made without those before it. */
struct random random_for(uint64_t seed, uint64_t number);
uint64_t next_random(struct random *random);
/* 0 to end - 1 */
int below(struct random *random, int end);
/* low to high */
int64_t between(struct random *random, int64_t low, int64_t high);
/* `percent` times in a hundred */
int chance(struct random *random, int percent);

struct text {
    uint8_t bytes[ROOM];
    size_t length;
};

/* Random bytes, a good sheet, one with faults of chosen kinds, or a good one with bytes or lines changed. */
void make_sheet(struct random *random, struct text *text);

#endif
