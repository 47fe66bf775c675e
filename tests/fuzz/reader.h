/* A second reader of sheets, written from documents 01 and 02 alone. */
#ifndef READER_H
#define READER_H

#include <stddef.h>
#include <stdint.h>

#define MOST 6             /* panels and triggers */
#define LONGEST 2048       /* bytes of a sheet */
#define LIMIT 100000       /* entries lie within +- this */
#define NONE INT64_MIN     /* an absent entry */

struct tables {
    int rule; /* 2 where the sheet begins with that line: then it has no floors and no due marks; else 1 */
    int panels, triggers;
    int64_t lag[MOST][MOST], floor[MOST], due[MOST], after[MOST][MOST];
    int64_t land[MOST][MOST]; /* by trigger, then panel; a sheet without such lines has none */
    int64_t last[MOST];       /* a sheet without such a line has none */
};

/* No sizes yet, no rule line, and all entries absent. */
void clear_tables(struct tables *tables);

/* 0 and the sheet's tables, or the refusal, 1 to 7 or 14. Entries past the sheet's sizes are absent. With 6, 7 and 14 they are whole too. */
uint32_t read_tables(const uint8_t *sheet, size_t length, struct tables *tables);

#endif
