/* A sheet with a last line: its caps, what they make, and the same sheet with another last line or without one. */
#ifndef LAST_H
#define LAST_H

#include "list.h"
#include "reader.h"
#include "sheets.h"

/*
 * What was met: sheets with a last line that have a plan; of these with land rules, with spare triggers. Caps; of these below 0, and those that
 * only panels without a floor keep from being larger. Times near what the caps make that are tightest and in time, and tightest and late.
 */
struct met_last {
    uint64_t sheets, land, spare, caps, below_0, no_floor, in_time, late;
};
extern struct met_last met_last;

/* The same tables without a last line. */
struct tables without_last(const struct tables *tables);

/* The same tables with a last line that lets panels without a floor land as late as one can. */
struct tables floors_only(const struct tables *tables);

/* A sheet that has a plan: its list and its least deviation are known. Nothing is asked of one without a last line. */
void check_last(struct random *random, const struct text *text, const struct tables *tables, const struct list *list, int64_t least);

#endif
