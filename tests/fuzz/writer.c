/* Document 01, "The sheet", and document 02, No. 2, 5 and 7, the other way round: from tables to the bytes of a sheet. */
#include "writer.h"

#include <inttypes.h>
#include <stdio.h>

#include "meaning.h"

static void add_text(struct text *text, const char *string)
{
    while (*string != 0 && text->length < ROOM) {
        text->bytes[text->length++] = (uint8_t)*string++;
    }
}

static void write_line(struct text *text, const char *key, const int64_t *entries, int count)
{
    char item[32];
    int i;
    add_text(text, key);
    for (i = 0; i < count; i++) {
        snprintf(item, sizeof item, "%" PRId64, entries[i]);
        add_text(text, i == 0 ? "" : ",");
        add_text(text, entries[i] == NONE ? "-" : item);
    }
    add_text(text, "\n");
}

static void write_rows(struct text *text, const char *key, const int64_t (*rows)[MOST], int lines, int count)
{
    int i;
    for (i = 0; i < lines; i++) {
        write_line(text, key, rows[i], count);
    }
}

void write_tables(const struct tables *tables, int land_lines, struct text *text)
{
    int64_t panels = tables->panels, triggers = tables->triggers;
    text->length = 0;
    add_text(text, by_spread(tables) ? "rule=2\n" : "");
    write_line(text, "panels=", &panels, 1);
    write_line(text, "triggers=", &triggers, 1);
    write_rows(text, "lag=", tables->lag, tables->panels, tables->triggers);
    if (!by_spread(tables)) {
        write_line(text, "floor=", tables->floor, tables->panels);
        write_line(text, "due=", tables->due, tables->triggers);
    }
    write_rows(text, "after=", tables->after, tables->triggers, tables->triggers);
    if (land_lines || has_land_rule(tables)) {
        write_rows(text, "land=", tables->land, tables->triggers, tables->panels);
    }
    if (has_last(tables)) {
        write_line(text, "last=", tables->last, tables->panels);
    }
}
