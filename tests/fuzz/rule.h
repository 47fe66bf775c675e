/* A sheet under rule 2 beside the sheet with marks that says the same. */
#ifndef RULE_H
#define RULE_H

#include "reader.h"
#include "sheets.h"

/*
 * What was met: good sheets under rule 2; of these whose order cannot be kept, with land rules, with a last line, with spare triggers, and with
 * a spread of 0. And 14: the trigger has one entry alone, on the diagonal, in its row or its column or in a land line; no times keep the order
 * either; and 6 where without it 14 would be due.
 */
struct met_rule {
    uint64_t sheets, no_order, land, last, spare, even;
    uint64_t diagonal, row, column, land_row, lagless_no_order, lagless_panel;
};
extern struct met_rule met_rule;

/* The tables of a sheet under rule 2 as those of a sheet with marks: floors of 0, and due marks by the lags. */
struct tables by_marks(const struct tables *tables);

/* A sheet that reading takes. Nothing is asked of one with marks. */
void check_rule(struct random *random, const struct text *text, const struct tables *tables);

/* A sheet that reading refuses: what it is, where that is 6 or 14. */
void note_lagless(const struct tables *tables, uint32_t refusal);

#endif
