/*
 * Memory to lend to the library. The library is compiled without the sanitizer, which therefore does not see what it reads and writes;
 * the processor does: an area lies between two pages that may not be touched, and what is lent ends or starts right there. On its other
 * side stand bytes with a mark, which must stay.
 */
#ifndef LENT_H
#define LENT_H

#include <stddef.h>
#include <stdint.h>

#define MARKED 64 /* bytes with a mark */

struct area {
    uint8_t *start;
    size_t size;
};

/* An area that can lend up to `size` bytes. Ends the program where there is no memory. */
struct area make_area(size_t size);

/* Lends `size` bytes, at the area's end or at its start. */
void *lend(struct area *area, size_t size, int at_end);

/* Whether the marks beside what was lent so are as they were. */
int marks_stay(const struct area *area, size_t size, int at_end);

/* Whether a touch past the end of the area, and one before its start, would have been seen. */
int guarded(const struct area *area);

#endif
