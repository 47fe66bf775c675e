/* What the programs here share: a count of cases, words that must stay, and what is held to them. Also C++. */
#ifndef EDGES_H
#define EDGES_H

#include <stdio.h>
#include <string.h>

#include "tuzhelar.h"

#define SPACE 30
#define ANSWER 20
#define UNTOUCHED 7777
#define NONE TUZHELAR_ABSENT

static int passed, failed;

static inline void check(const char *name, size_t number, int holds)
{
    if (holds) {
        passed++;
    } else {
        failed++;
        printf("FAILED: %s, %lu\n", name, (unsigned long)number);
    }
}

static inline const uint8_t *bytes(const char *sheet)
{
    return (const uint8_t *)sheet;
}

static inline void untouched(int32_t *space, int64_t *answer)
{
    size_t i;
    for (i = 0; i < SPACE; i++) {
        space[i] = UNTOUCHED;
    }
    for (i = 0; i < ANSWER; i++) {
        answer[i] = UNTOUCHED;
    }
}

/* The first `written` words are those wanted, and the others were not touched. */
static inline int space_holds(const int32_t *space, const int32_t *wanted, size_t written)
{
    size_t i;
    for (i = 0; i < SPACE; i++) {
        if (space[i] != (i < written ? wanted[i] : UNTOUCHED)) {
            return 0;
        }
    }
    return 1;
}

static inline int answer_holds(const int64_t *answer, const int64_t *wanted, size_t written)
{
    size_t i;
    for (i = 0; i < ANSWER; i++) {
        if (answer[i] != (i < written ? wanted[i] : UNTOUCHED)) {
            return 0;
        }
    }
    return 1;
}

/* 9 gives the count needed and the words of a line, each at its place if the answer has it, and no other word. */
static inline int room_holds(const int64_t *answer, size_t length, size_t count_at, int64_t count, size_t words_at, int64_t words)
{
    size_t i;
    for (i = 0; i < ANSWER; i++) {
        int64_t wanted = i == count_at ? count : i == words_at ? words : UNTOUCHED;
        if (answer[i] != (i < length ? wanted : UNTOUCHED)) {
            return 0;
        }
    }
    return 1;
}

static inline size_t least(size_t a, size_t b)
{
    return a < b ? a : b;
}

static inline uint32_t tested(const char *sheet, const int64_t *times, size_t length)
{
    return tuzhelar_test(bytes(sheet), strlen(sheet), times, length);
}

/* The last line of a program, and its status. */
static inline int summed(void)
{
    printf("%d passed, %d failed\n", passed, failed);
    return failed != 0;
}

#endif
