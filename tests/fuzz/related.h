/* A second sheet beside a good one, for comparing the two. */
#ifndef RELATED_H
#define RELATED_H

#include "reader.h"
#include "sheets.h"

/*
 * A sheet related to that of the tables, with as many triggers. Returns whether the same timings are known to be tightest on both, and the
 * same triggers spare; where it is not known they often are.
 */
int make_related(struct random *random, const struct tables *tables, struct text *text);

/* Another last line, one where there was none, or none. Which timings are tightest does not depend on it. */
void change_last(struct random *random, struct tables *tables);

#endif
