/* Comparing two sheets, held to planning each of them alone and to what they mean. */
#ifndef PAIRS_H
#define PAIRS_H

#include "sheets.h"

/* What was met: sheets with as many triggers of which not the same are spare; and sheets under other rules with the same timings, and others. */
struct met_pairs {
    uint64_t other_spares, rules_same, rules_different;
};
extern struct met_pairs met_pairs;

/* The memory that the two sheets, the two spaces and the answer are lent from; 0 where it is not guarded. */
int make_pairs(void);

/*
 * Compares a sheet with another. `known_same`: the same triggers are known to be spare on both and, where both have a plan, the same timings
 * tightest. Returns the number that was returned.
 */
uint32_t check_pair(struct random *random, const struct text *first, const struct text *second, int known_same);

/* Notes the first fault found with what is tried. */
void expect(int holds, const char *what);

#endif
