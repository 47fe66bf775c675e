/* What the files of wrong planners share: the number of faults, which one is named, and the library's own functions. */
#ifndef WRONG_H
#define WRONG_H

#include "reader.h"
#include "tuzhelar.h"

#define FAULTS 175

/* Whether this is the fault that the variable WRONG names. */
int fault(int number);

uint32_t __real_tuzhelar_plan(const uint8_t *sheet, size_t sheet_length, int32_t *space, size_t space_length, int64_t *answer,
                              size_t answer_length);
uint32_t __real_tuzhelar_kept(const uint8_t *sheet, size_t sheet_length, int64_t *answer, size_t answer_length);
uint32_t __real_tuzhelar_test(const uint8_t *sheet, size_t sheet_length, const int64_t *times, size_t times_length);
uint32_t __real_tuzhelar_latest(const uint8_t *sheet, size_t sheet_length, const int64_t *times, size_t times_length, int32_t *space,
                                size_t space_length, int64_t *answer, size_t answer_length);
uint32_t __real_tuzhelar_same(const uint8_t *first, size_t first_length, const uint8_t *second, size_t second_length, int32_t *left,
                              size_t left_length, int32_t *right, size_t right_length, int64_t *answer, size_t answer_length);
uint32_t __real_tuzhelar_hire(size_t panels, size_t triggers, uint32_t state, uint8_t *bytes, size_t bytes_length, int64_t *answer,
                              size_t answer_length);

/* Whether reading takes a sheet. */
int is_good(const uint8_t *sheet, size_t length);

/* Where the first line with this key starts, which is not the sheet's first, or the sheet's end. */
size_t before_key(const uint8_t *sheet, size_t length, const char *key);

/* Where the line that starts at a place ends, behind its LF, or the sheet's end. */
size_t line_end(const uint8_t *sheet, size_t length, size_t at);

/* A sheet of changed tables. Returns its length. */
size_t write_copy(uint8_t *copy, const struct tables *tables);

/* ---- Last lines (wrong_last.c) */

/* What a function was lent to write to, and the number that it returned. */
struct written {
    uint32_t number;
    int32_t *space;
    size_t space_length;
    int64_t *answer;
    size_t answer_length;
    int64_t words; /* the answer's word for the words of a line, as it was before; for comparing these words themselves */
};

/* A copy of a sheet that reading takes, without its last line. Returns its length. */
size_t forget_last(uint8_t *copy, const uint8_t *sheet, size_t length);

/* How many words of the space planning sees. */
size_t room_last(const uint8_t *sheet, size_t length, size_t space_length);

/* Faults of the caps of a list that stands in a space, whichever function wrote it. */
void wrong_caps(const uint8_t *sheet, size_t length, int32_t *space);

/* Faults of each function on top of what it returned. */
uint32_t reading_last(const uint8_t *sheet, size_t length, uint32_t number);
uint32_t plan_last(const uint8_t *sheet, size_t length, const struct written *written);
void kept_last(const uint8_t *sheet, size_t length, uint32_t number, int64_t *answer, size_t answer_length);
uint32_t test_last(const uint8_t *sheet, size_t length, const int64_t *times, size_t times_length, uint32_t number);
void latest_last(const uint8_t *sheet, size_t length, const int64_t *times, size_t times_length, const struct written *written);
uint32_t same_last(const struct written *left, const struct written *right);

/* ---- Rule 2 (wrong_rule.c) */

/* The sheet that is read in the place of another, written to `copy`, or that sheet itself. `own` is the fault of the function that asks. */
const uint8_t *misread_rule(int own, uint8_t *copy, const uint8_t *sheet, size_t *length);

/* Faults on top of what a function returned: of every function on one sheet, of those on a sheet and times, and of comparing. */
uint32_t reading_rule(const uint8_t *sheet, size_t length, uint32_t number);
uint32_t times_rule(const uint8_t *sheet, size_t length, size_t times_length, uint32_t number);
uint32_t same_rule(const uint8_t *first, size_t first_length, const uint8_t *second, size_t second_length, uint32_t number);

#endif
