/* The latest times that are tightest, in time and no later than given ones, held to the list and to what the sheet means. */
#ifndef LATEST_H
#define LATEST_H

#include "list.h"
#include "reader.h"
#include "sheets.h"

/* What was met: times found, of these the given ones, those found by the meaning alone, those that last moments hold back, and 9. */
struct met_latest {
    uint64_t found, given, by_meaning, held_back, too_small;
};
extern struct met_latest met_latest;

/* The memory that sheet, times, space and answer are lent from; 0 where it is not guarded. */
int make_latest(void);

/* Times that are refused with this number, whatever space and answer are lent: nothing is written. */
void check_latest_refused(struct random *random, const struct text *text, const int64_t *times, size_t length, uint32_t number);

/* More times than a sheet can have, none of which is there to be read. */
void check_latest_many(const struct text *text, size_t length, uint32_t number);

/* A sheet that has a plan: its list and its least deviation are known. */
void check_latest(struct random *random, const struct text *text, const struct tables *tables, const struct list *list, int64_t least);

#endif
