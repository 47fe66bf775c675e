/* What documents 01 and 02 say of times on the tables of a sheet. */
#ifndef MEANING_H
#define MEANING_H

#include "reader.h"

/* Whether times keep every after rule and every land rule. */
int keeps_order(const struct tables *tables, const int64_t *times);

/* Whether the sheet follows rule 2, the spread of landings, and not its marks. */
int by_spread(const struct tables *tables);

/* Whether the panel is one of the sheet's and has a floor. Under rule 2 each "counts as 0". */
int has_floor(const struct tables *tables, int panel);

/* The earliest landing of all panels. */
int64_t earliest(const struct tables *tables, const int64_t *times);

/* The largest p(i) - y(i) over panels with a floor, on a sheet with marks. */
int64_t early(const struct tables *tables, const int64_t *times);

/* A trigger of the sheet without a lag to any panel, an after entry in its row or column, or a land entry in its row. */
int is_spare(const struct tables *tables, int trigger);

/* The sheet's spare triggers, bit 0 for trigger 1. */
int spares(const struct tables *tables);

/* A trigger of the sheet without a lag to any panel, be it spare or not. */
int is_lagless(const struct tables *tables, int trigger);

/* Whether a trigger of the sheet is lagless and not spare, which under rule 2 is refused. */
int has_lagless(const struct tables *tables);

/* The largest x(j) - q(j) over triggers that are not spare, and how early the landings are; under rule 2 the latest landing less the earliest. */
int64_t deviation(const struct tables *tables, const int64_t *times);

/* Whether the sheet has a last line. */
int has_last(const struct tables *tables);

/* Whether no panel lands later than the last line allows, if there is one. Times may be absent, as in a line: then nothing lands by them. */
int in_time(const struct tables *tables, const int64_t *times);

/* Whether a trigger waits for a landing. */
int has_land_rule(const struct tables *tables);

/* Whether the rules have a circle that adds up to more than 0, with the lag to the panel where a trigger waits for a landing. */
int circle_above_0(const struct tables *tables);

#endif
