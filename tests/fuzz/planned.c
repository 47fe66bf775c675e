#include "planned.h"

#include <string.h>

#include "writer.h"

void plan_text(struct planned *planned, const struct text *text)
{
    memset(planned, 0, sizeof *planned);
    planned->number = tuzhelar_plan(text->bytes, text->length, planned->space, PLANNED_WORDS, planned->answer, TUZHELAR_PLAN_WORDS);
    tuzhelar_kept(text->bytes, text->length, planned->kept, TUZHELAR_KEPT_WORDS);
}

void plan_tables(struct random *random, struct planned *planned, const struct tables *tables)
{
    struct text text;
    write_tables(tables, chance(random, 50), &text);
    plan_text(planned, &text);
}

struct list planned_list(const struct planned *planned, const struct tables *tables)
{
    struct list list = {planned->space, 0, 0};
    list.count = planned->number == TUZHELAR_DONE ? (size_t)planned->answer[3] : 0;
    list.wide = line_words(tables);
    return list;
}
