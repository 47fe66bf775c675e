/* Planning and the kept table of a sheet, for comparing them with those of a sheet beside it. */
#ifndef PLANNED_H
#define PLANNED_H

#include "list.h"
#include "reader.h"
#include "sheets.h"
#include "tuzhelar.h"

#define PLANNED_WORDS 800 /* of a space: more than any list that is met takes */

/* What was not written is 0, so that the bytes of two of these can be compared. */
struct planned {
    uint32_t number;
    int64_t answer[TUZHELAR_PLAN_WORDS], kept[TUZHELAR_KEPT_WORDS];
    int32_t space[PLANNED_WORDS];
};

void plan_text(struct planned *planned, const struct text *text);

/* The same for the sheet of the tables, with or without land lines where they hold no rule. */
void plan_tables(struct random *random, struct planned *planned, const struct tables *tables);

/* The list in the space, of the sheet of the tables: on a refusal it has no lines. */
struct list planned_list(const struct planned *planned, const struct tables *tables);

#endif
