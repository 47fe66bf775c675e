#include "list.h"

#include <string.h>

#include "meaning.h"
#include "tuzhelar.h"

size_t line_words(const struct tables *tables)
{
    return has_last(tables) ? TUZHELAR_CAPPED_WORDS : TUZHELAR_LINE_WORDS;
}

const int32_t *line_at(const struct list *list, size_t i)
{
    return list->words + list->wide * i;
}

int64_t cap_at(const struct list *list, size_t i)
{
    return list->wide == TUZHELAR_CAPPED_WORDS ? line_at(list, i)[TUZHELAR_LINE_WORDS] : INT64_MAX;
}

int same_lines(const struct list *a, const struct list *b)
{
    size_t i;
    for (i = 0; a->count == b->count && i < a->count; i++) {
        if (memcmp(line_at(a, i), line_at(b, i), TUZHELAR_LINE_WORDS * sizeof *a->words) != 0) {
            return 0;
        }
    }
    return a->count == b->count;
}

void clear_times(int64_t times[MOST])
{
    int j;
    for (j = 0; j < MOST; j++) {
        times[j] = NONE;
    }
}

void lift(int64_t times[MOST], const int32_t *line, int64_t weight)
{
    int j;
    for (j = 0; j < MOST; j++) {
        if (line[1 + j] != TUZHELAR_ABSENT && weight + line[1 + j] > times[j]) {
            times[j] = weight + line[1 + j];
        }
    }
}
