/* The lists that planning leaves at the front of a space. */
#ifndef LIST_H
#define LIST_H

#include "reader.h"

struct list {
    const int32_t *words;
    size_t count; /* lines */
    size_t wide;  /* words of each: eight where it has a cap, the eighth, else seven */
};

/* How many words a line of the sheet takes. */
size_t line_words(const struct tables *tables);

/* The words of a line, the number of triggers first. */
const int32_t *line_at(const struct list *list, size_t i);

/* A line's cap; where it has none, more than any weight. */
int64_t cap_at(const struct list *list, size_t i);

/* Whether two lists have the same lines, their caps left out. */
int same_lines(const struct list *a, const struct list *b);

/* No times yet: all are absent, below every number. */
void clear_times(int64_t times[MOST]);

/* Takes the larger of each time and the line's component with a weight added. Unused components are absent. */
void lift(int64_t times[MOST], const int32_t *line, int64_t weight);

#endif
