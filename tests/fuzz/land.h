/* A sheet with land lines beside the same sheet without them. */
#ifndef LAND_H
#define LAND_H

#include "reader.h"
#include "sheets.h"

/* What was met: good sheets with land lines; of these without a rule, with rules that make 8, with rules that change the plan. */
struct met_land {
    uint64_t sheets, no_rule, no_order, changed;
};
extern struct met_land met_land;

/* The same tables without the rules of the land lines. */
struct tables without_land(const struct tables *tables);

/* A sheet that reading takes: land lines without a rule change nothing of its plan. */
void check_land(const struct text *text, const struct tables *tables);

#endif
