/* Spare triggers: numbers for their times, and a sheet with them beside sheets on which they make no difference. */
#ifndef SPARES_H
#define SPARES_H

#include "reader.h"
#include "sheets.h"

/*
 * What was met: good sheets with spare triggers; of these where the first, the last, one between others, several, five of six are. And
 * triggers that one entry alone keeps from being spare: an after entry on the diagonal, in the row or in the column, or a land entry.
 */
struct met_spares {
    uint64_t sheets, first, last, between, several, five, diagonal, row, column, land;
};
extern struct met_spares met_spares;

/* The kinds of an entry that alone keeps a trigger from being spare. */
enum only_entry { NOT_ONE, ON_DIAGONAL, IN_ROW, IN_COLUMN, IN_LAND };

/* The kind of the one entry of a trigger; none where it has a lag, or more or fewer entries. */
enum only_entry only_entry(const struct tables *tables, int trigger);

/* Any times within the limits for the spare triggers. */
void fill_spares(struct random *random, const struct tables *tables, int64_t *times);

/* The same tables with a rule for each spare trigger that asks for nothing and makes it spare no more. */
struct tables all_in_use(const struct tables *tables);

/* A sheet that reading takes, planned beside sheets whose spare triggers have other due marks, are not there, or are not spare. */
void check_spares(struct random *random, const struct text *text, const struct tables *tables);

#endif
