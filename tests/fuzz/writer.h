/* Sheets written from their tables. */
#ifndef WRITER_H
#define WRITER_H

#include "reader.h"
#include "sheets.h"

/* The sheet of the tables. Its land lines are written where they hold a rule or `land_lines` is set: without a rule they mean nothing. */
void write_tables(const struct tables *tables, int land_lines, struct text *text);

#endif
