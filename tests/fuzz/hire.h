/* Sheets that are made, held to a second generator, written from document 02 alone. */
#ifndef HIRE_H
#define HIRE_H

#include "sheets.h"

/* What was met: sheets made, the bytes of the longest, and the refusals. */
struct met_hire {
    uint64_t made, wrong_size, too_small;
    size_t longest;
};
extern struct met_hire met_hire;

/* The memory that the bytes and the answer are lent from; 0 where it is not guarded. */
int make_hire(void);

/* Makes sheets of sizes and from states that are drawn, and tries what is refused. The last one, which is good, is left in the text. */
void check_hire(struct random *random, struct text *text);

#endif
