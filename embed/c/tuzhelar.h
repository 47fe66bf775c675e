/*
 * Tuzhelar, the proved planner for surtitle cues, for C and C++ on x86-64 Linux.
 *
 * `tools/library` writes target/staticlib/libplanner_c.a, which is linked as it is:
 *
 *     cc -Iembed/c program.c target/staticlib/libplanner_c.a
 *
 * The library defines the six names below and calls memcpy and memset alone. It keeps nothing between calls, so that
 * threads may call it at once, each with bytes and words of its own. Planning, the latest times and comparing were measured to
 * take up to 68 KB of stack, the others 8 KB.
 *
 * There are two ways in. `tuzhelar_plan_sheet`, `tuzhelar_kept_table`, `tuzhelar_test_timing`, `tuzhelar_latest_timing`,
 * `tuzhelar_same_timings` and `tuzhelar_hire_sheet`, further below, are a thin layer in C that takes null pointers and overlaps
 * too. They call `tuzhelar_plan`, `tuzhelar_kept`, `tuzhelar_test`, `tuzhelar_latest`, `tuzhelar_same` and `tuzhelar_hire`, the
 * proved functions.
 */
#ifndef TUZHELAR_H
#define TUZHELAR_H

#include <stddef.h>
#include <stdint.h>
#include <string.h>

#ifdef __cplusplus
extern "C" {
#endif

/* ---- Sizes and numbers */

#define TUZHELAR_SHEET_BYTES 2048 /* a longer sheet is refused, 1 */
#define TUZHELAR_MOST 6           /* panels and triggers: each 1 to 6 */
#define TUZHELAR_LINE_WORDS 7     /* words of a line: its count of triggers and six components, the unused ones absent */
#define TUZHELAR_CAPPED_WORDS 8   /* words of a line on a sheet with a last line: the same, then its cap */
#define TUZHELAR_ABSENT INT32_MIN /* an absent component, and that of a spare trigger */
#define TUZHELAR_PLAN_WORDS 6     /* words of planning's answer */
#define TUZHELAR_KEPT_WORDS 16    /* words of the kept table's answer */
#define TUZHELAR_LATEST_WORDS 8   /* words of the latest times' answer */
#define TUZHELAR_SAME_WORDS 4     /* words of comparing's answer */
#define TUZHELAR_HIRE_WORDS 2     /* words of the answer for a sheet that is made */
#define TUZHELAR_HIRE_BYTES 1133  /* bytes that are always enough for such a sheet: no good sheet has more */
#define TUZHELAR_LAST_TIME 1000000000 /* a time beyond this, or below minus this, is refused, 11 */

/* What the functions return: 0 for done, a refusal 1 to 14, for a tested timing yes or no, for two sheets one of three. */
#define TUZHELAR_DONE 0u
#define TUZHELAR_TOO_LONG 1u
#define TUZHELAR_FORM 2u
#define TUZHELAR_SIZE 3u
#define TUZHELAR_RANGE 4u
#define TUZHELAR_NO_DUE 5u
#define TUZHELAR_NO_LAG 6u
#define TUZHELAR_NO_FLOOR 7u
#define TUZHELAR_ORDER 8u
#define TUZHELAR_SPACE 9u
#define TUZHELAR_COMPONENTS 10u
#define TUZHELAR_TIME 11u
#define TUZHELAR_HIRE_SIZE 12u
#define TUZHELAR_SHEET_SPACE 13u
#define TUZHELAR_NO_TRIGGER_LAG 14u
#define TUZHELAR_YES 100u
#define TUZHELAR_NO 101u
#define TUZHELAR_SAME 100u
#define TUZHELAR_DIFFERENT 101u
#define TUZHELAR_UNLIKE 102u
#define TUZHELAR_SECOND 200u /* so much more is a refusal of the second of two sheets */

/*
 * ---- The proved functions
 *
 * Their contracts (crates/planner_c/src/lib.rt) fix the number returned and every byte and word afterwards, for any bytes, words
 * and lengths. What is left to the caller, as for any C function:
 *
 * - A pointer is valid for its length, which counts bytes for a sheet and for `bytes`, and words for the others, is aligned as
 *   its type asks, and the bytes or words there hold values. For length 0 any valid pointer will do: nothing is read or written
 *   through it. The proof does not speak of null pointers.
 * - What is written, `space`, `left`, `right`, `bytes` and `answer`, shares no memory with one another, with a sheet or with
 *   `times`. (Sheets and `times` are only read: `first` and `second` may be one sheet.)
 * - Nothing else writes there during the call.
 *
 * `space`, `left`, `right` and `bytes` are what document 01 calls lent space: the rest is left, and a refusal changes no byte or
 * word of it. The words of `answer` are results, returned through a pointer because there are several, and not lent space.
 *
 * A trigger is spare if it has no lag to any panel, no present after entry in its row or column, and no present land entry in
 * its row; at least one trigger never is. A spare trigger's due mark is read and refused as any other and counts for nothing
 * else, and its time may be any that is not refused, 11. A line's first word counts the spare triggers too; their components
 * are absent in every line, and no other trigger's are.
 *
 * A sheet that begins with the line rule=2 has no floor and due lines. Its deviation is the spread of landings, the latest less
 * the earliest of all panels, which is never below 0: every floor counts as 0 there, and a trigger's due mark as minus its
 * largest lag. Each trigger that is not spare needs a lag, 14; this is a refusal of the sheet's bytes, as 1 to 7 are, and comes
 * behind these and before all others. What else is said here of sheets is said of either rule.
 *
 * A sheet with a last line gives each panel a last moment. Times are in time if no panel lands later than that, and a line's
 * cap is the largest weight with which it is in time itself. Times are tightest and in time exactly when they combine all the
 * lines with weights no greater than their caps, spare triggers left aside. Deviation, steps, selections, lines, the kept
 * table and comparing are the same as without the last line; testing and the latest times are about times in time. On a sheet
 * without a last line all times are.
 */

/*
 * Planning. Returns 0 or the refusal: 1 to 7 or 14; then 8; then 9.
 *
 *   0        the list stands at the front of `space`, and the rest of the space is as it was; answer[0] to answer[5] are
 *            deviation, steps, selections, count, the spare triggers, a byte with bit 0 for trigger 1, and how many words each
 *            line takes: seven, or eight on a sheet with a last line, the eighth being its cap.
 *   9        the list has more lines than the space holds, which is space_length / 7 rounded down, or space_length / 8 on a
 *            sheet with a last line: answer[3] is the count needed, answer[5] how many words each line takes, and no other word
 *            is written.
 *   other    no word is written.
 *
 * A word of the answer that is at or past `answer_length` is dropped, and words past the sixth stay as they were.
 * sheet_length 0 is 2, above 2,048 it is 1. With space_length 0 to 6 a sheet that has a plan is 9: no list is empty.
 */
uint32_t tuzhelar_plan(const uint8_t *sheet, size_t sheet_length, int32_t *space, size_t space_length, int64_t *answer,
                       size_t answer_length);

/*
 * Kept table and walk. Returns 0 or the refusal: 1 to 7 or 14; then 8.
 *
 *   0        answer[0] to answer[3] are deviation, steps, selections and the number of panels. For panel i, from 0, answer[4 + 2 i]
 *            is its byte, bit j for trigger j + 1, and answer[5 + 2 i] the number of bits set: 0 and 0 for a panel without a
 *            floor and for one that the sheet does not have. A spare trigger's bit is never set.
 *   other    no word is written.
 *
 * A word of the answer that is at or past `answer_length` is dropped, and words past the sixteenth stay as they were.
 */
uint32_t tuzhelar_kept(const uint8_t *sheet, size_t sheet_length, int64_t *answer, size_t answer_length);

/*
 * Testing a timing. Returns 100 if the times are tightest and in time, 101 if they are not, or the refusal: 1 to 7 or 14; then
 * 10, `times_length` is not the sheet's number of triggers; then 11, a time is beyond +-1,000,000,000; then 8.
 *
 * It writes nothing. As many times are tested as are lent: none is made up, and of more than six, which are always 10 where
 * the sheet is not refused before, none is looked at. A spare trigger has a time too; for 10 and 11 it is as any other, and
 * whatever it is then, the answer is the same.
 */
uint32_t tuzhelar_test(const uint8_t *sheet, size_t sheet_length, const int64_t *times, size_t times_length);

/*
 * The latest times that are tightest, in time and no later than given ones: none of them exceeds the given time in its place, and
 * each is at least as late as in any other such times. There always are some. Returns 0 or the refusal: 1 to 7 or 14; then 10,
 * `times_length` is not the sheet's number of triggers; then 11, a given time is beyond +-1,000,000,000; then 8; then 9.
 *
 *   0        the list stands at the front of `space`, as tuzhelar_plan writes it, and the rest of the space is as it was;
 *            answer[0] is its number of lines, answer[1] to answer[6] are the times, 0 past the sheet's number of triggers, and
 *            answer[7] is how many words each line takes, seven or eight.
 *   9        the list has more lines than the space holds: answer[0] is the count needed, answer[7] how many words each line
 *            takes, and no other word is written.
 *   other    no word is written.
 *
 * A word of the answer that is at or past `answer_length` is dropped, and words past the eighth stay as they were. As many
 * times are taken as are lent, as tuzhelar_test has it. Given times that are tightest and in time come back as they are, and the
 * time given for a spare trigger always does; times given near -1,000,000,000 can come back below it, where tuzhelar_test takes
 * none (11).
 */
uint32_t tuzhelar_latest(const uint8_t *sheet, size_t sheet_length, const int64_t *times, size_t times_length, int32_t *space,
                         size_t space_length, int64_t *answer, size_t answer_length);

/*
 * Comparing two sheets: whether the same timings are tightest on both. Last moments and caps have no part in this: one sheet may
 * have a last line where the other has none, and one may follow rule 2 where the other has marks. Returns
 *
 *   100          every timing is tightest on both sheets or on neither;
 *   101          some timing is tightest on one of them only;
 *   102          the sheets have different numbers of triggers, or not the same ones are spare. Of timings this says nothing.
 *                For these three each list stands at the front of its space, as tuzhelar_plan writes it, and the rest of the space
 *                is as it was: the first sheet's in `left`, the second's in `right`. answer[0] and answer[1] are their numbers of
 *                lines, answer[2] and answer[3] how many words each of these lines takes, seven or eight.
 *   1 to 9, 14   planning refuses the first sheet; for 9 answer[0] is the count needed, answer[2] how many words each line takes.
 *   201 to 209,  planning refuses the second, with a number 200 less, and not the first; for 209 answer[1] is the count needed,
 *   214          answer[3] how many words each line takes.
 *                A refusal of either changes no word of either space, and writes no other word of the answer.
 *
 * A word of the answer that is at or past `answer_length` is dropped, and words past the fourth stay as they were.
 */
uint32_t tuzhelar_same(const uint8_t *first, size_t first_length, const uint8_t *second, size_t second_length, int32_t *left,
                       size_t left_length, int32_t *right, size_t right_length, int64_t *answer, size_t answer_length);

/*
 * Making a sheet to try: the sizes and a state make one sheet, with marks and without land or last lines, the same wherever it
 * is made, and the next state. Returns 0 or the refusal: 12, a size is not 1 to 6; then 13, the sheet is longer than
 * `bytes_length`.
 *
 *   0        the sheet stands at the front of `bytes`, and the rest of the bytes is as it was; answer[0] is how many bytes it
 *            takes, answer[1] the next state.
 *   12, 13   no byte and no word is written.
 *
 * A word of the answer that is at or past `answer_length` is dropped, and words past the second stay as they were. 1,133 bytes
 * are always enough. Every sheet so made is accepted and its order can be kept: planning it with enough space is no refusal.
 *
 * For a load of many sheets each is made from the state that the one before returned. States near one another make nearly the
 * same sheet or the same: with six panels and six triggers the states 0 to 999 make three sheets.
 */
uint32_t tuzhelar_hire(size_t panels, size_t triggers, uint32_t state, uint8_t *bytes, size_t bytes_length, int64_t *answer,
                       size_t answer_length);

/*
 * ---- The layer in C, which is not proved
 *
 * It gives an answer to every argument but a pointer that is not null and not valid for its length:
 *
 * - A null pointer counts as length 0: no sheet (2), no word of space (9 for a sheet that has a plan), no time (10 for a
 *   good sheet), no byte for a sheet that is made (13 where the sizes are 1 to 6).
 * - Sheets are copied, and so are times where a space is lent beside them, so that they may lie in the words of a space; they
 *   are read whole before the first word is written. Of a sheet above 2,048 bytes no byte is looked at (1). That two spaces
 *   share no memory is left to the caller.
 * - The answer is a struct, so that no answer can be too short.
 */

struct tuzhelar_planned {
    uint32_t refusal;   /* 0, or 1 to 9 or 14 */
    int64_t deviation;  /* this and the next two are 0 on a refusal */
    int64_t steps;
    int64_t selections;
    size_t count;       /* lines written; for 9 lines needed; 0 on any other refusal */
    uint8_t spares;     /* the spare triggers, bit 0 for trigger 1; 0 on a refusal */
    size_t line_words;  /* words that each line takes: TUZHELAR_LINE_WORDS or, with its cap, TUZHELAR_CAPPED_WORDS; 0 as count */
};

struct tuzhelar_keeping {
    uint32_t refusal;   /* 0, or 1 to 8 or 14; on a refusal all else is 0 */
    int64_t deviation;
    int64_t steps;
    int64_t selections;
    size_t panels;
    uint8_t kept[TUZHELAR_MOST];   /* a panel's kept triggers, bit 0 for trigger 1 */
    uint8_t counts[TUZHELAR_MOST]; /* how many they are */
};

struct tuzhelar_reached {
    uint32_t refusal;             /* 0, or 1 to 11 or 14 */
    size_t count;                 /* lines written; for 9 lines needed; 0 on any other refusal */
    int64_t times[TUZHELAR_MOST]; /* the latest times, 0 past the sheet's number of triggers and on a refusal */
    size_t line_words;            /* words that each line takes, as planning has it; 0 as count */
};

struct tuzhelar_compared {
    uint32_t number; /* TUZHELAR_SAME, TUZHELAR_DIFFERENT or TUZHELAR_UNLIKE, or a refusal, 1 to 9 or 14, 201 to 209 or 214 */
    size_t first;    /* lines written to `left`; for 9 lines needed there; 0 on any other refusal */
    size_t second;   /* lines written to `right`; for 209 lines needed there; 0 on any other refusal */
    size_t first_words;  /* words that each line takes there, as planning has it; 0 as first */
    size_t second_words; /* the same for the second sheet; 0 as second */
};

struct tuzhelar_hired {
    uint32_t refusal; /* 0, 12 or 13; on a refusal all else is 0 */
    size_t length;    /* bytes written: the sheet */
    uint32_t state;   /* the next state */
};

/* The length under which a copy of the sheet is handed on. One that is too long is so by its length alone. */
static inline size_t tuzhelar_copied(uint8_t copy[TUZHELAR_SHEET_BYTES + 1], const void *sheet, size_t sheet_length)
{
    memset(copy, 0, TUZHELAR_SHEET_BYTES + 1);
    if (sheet == NULL) {
        return 0;
    }
    if (sheet_length > TUZHELAR_SHEET_BYTES) {
        return TUZHELAR_SHEET_BYTES + 1;
    }
    memcpy(copy, sheet, sheet_length);
    return sheet_length;
}

/* Planning: the list at the front of `space`, as tuzhelar_plan writes it. */
static inline struct tuzhelar_planned tuzhelar_plan_sheet(const void *sheet, size_t sheet_length, int32_t *space,
                                                          size_t space_length)
{
    uint8_t copy[TUZHELAR_SHEET_BYTES + 1];
    size_t length = tuzhelar_copied(copy, sheet, sheet_length);
    int32_t none = 0;
    int64_t answer[TUZHELAR_PLAN_WORDS] = {0, 0, 0, 0, 0, 0};
    struct tuzhelar_planned planned;
    if (space == NULL) {
        space = &none;
        space_length = 0;
    }
    planned.refusal = tuzhelar_plan(copy, length, space, space_length, answer, TUZHELAR_PLAN_WORDS);
    planned.deviation = answer[0];
    planned.steps = answer[1];
    planned.selections = answer[2];
    planned.count = (size_t)answer[3];
    planned.spares = (uint8_t)answer[4];
    planned.line_words = (size_t)answer[5];
    return planned;
}

/* Kept table and walk. */
static inline struct tuzhelar_keeping tuzhelar_kept_table(const void *sheet, size_t sheet_length)
{
    uint8_t copy[TUZHELAR_SHEET_BYTES + 1];
    size_t length = tuzhelar_copied(copy, sheet, sheet_length);
    int64_t answer[TUZHELAR_KEPT_WORDS] = {0, 0, 0, 0, 0, 0, 0, 0, 0, 0, 0, 0, 0, 0, 0, 0};
    struct tuzhelar_keeping keeping;
    int i;
    keeping.refusal = tuzhelar_kept(copy, length, answer, TUZHELAR_KEPT_WORDS);
    keeping.deviation = answer[0];
    keeping.steps = answer[1];
    keeping.selections = answer[2];
    keeping.panels = (size_t)answer[3];
    for (i = 0; i < TUZHELAR_MOST; i++) {
        keeping.kept[i] = (uint8_t)answer[4 + 2 * i];
        keeping.counts[i] = (uint8_t)answer[5 + 2 * i];
    }
    return keeping;
}

/* Testing a timing: TUZHELAR_YES, TUZHELAR_NO or a refusal. More than six times are 10, unread. */
static inline uint32_t tuzhelar_test_timing(const void *sheet, size_t sheet_length, const int64_t *times, size_t times_length)
{
    uint8_t copy[TUZHELAR_SHEET_BYTES + 1];
    size_t length = tuzhelar_copied(copy, sheet, sheet_length);
    int64_t none = 0;
    if (times == NULL) {
        times = &none;
        times_length = 0;
    }
    return tuzhelar_test(copy, length, times, times_length);
}

/* The latest tightest times in time and no later than given ones, and the list at the front of `space`, as tuzhelar_latest has it. */
static inline struct tuzhelar_reached tuzhelar_latest_timing(const void *sheet, size_t sheet_length, const int64_t *times,
                                                             size_t times_length, int32_t *space, size_t space_length)
{
    uint8_t copy[TUZHELAR_SHEET_BYTES + 1];
    size_t length = tuzhelar_copied(copy, sheet, sheet_length);
    int32_t none = 0;
    int64_t given[TUZHELAR_MOST] = {0, 0, 0, 0, 0, 0}, answer[TUZHELAR_LATEST_WORDS] = {0, 0, 0, 0, 0, 0, 0, 0};
    struct tuzhelar_reached reached;
    if (times == NULL) {
        times = given;
        times_length = 0;
    }
    if (times_length <= TUZHELAR_MOST) { /* more are not looked at */
        memcpy(given, times, times_length * sizeof *times);
        times = given;
    }
    if (space == NULL) {
        space = &none;
        space_length = 0;
    }
    reached.refusal = tuzhelar_latest(copy, length, times, times_length, space, space_length, answer, TUZHELAR_LATEST_WORDS);
    reached.count = (size_t)answer[0];
    memcpy(reached.times, answer + 1, sizeof reached.times);
    reached.line_words = (size_t)answer[7];
    return reached;
}

/* Comparing two sheets: each list at the front of its space, as tuzhelar_same writes it. */
static inline struct tuzhelar_compared tuzhelar_same_timings(const void *first, size_t first_length, const void *second,
                                                             size_t second_length, int32_t *left, size_t left_length,
                                                             int32_t *right, size_t right_length)
{
    uint8_t copy[TUZHELAR_SHEET_BYTES + 1], other[TUZHELAR_SHEET_BYTES + 1];
    size_t length = tuzhelar_copied(copy, first, first_length), other_length = tuzhelar_copied(other, second, second_length);
    int32_t no_left = 0, no_right = 0;
    int64_t answer[TUZHELAR_SAME_WORDS] = {0, 0, 0, 0};
    struct tuzhelar_compared compared;
    if (left == NULL) {
        left = &no_left;
        left_length = 0;
    }
    if (right == NULL) {
        right = &no_right;
        right_length = 0;
    }
    compared.number = tuzhelar_same(copy, length, other, other_length, left, left_length, right, right_length, answer,
                                    TUZHELAR_SAME_WORDS);
    compared.first = (size_t)answer[0];
    compared.second = (size_t)answer[1];
    compared.first_words = (size_t)answer[2];
    compared.second_words = (size_t)answer[3];
    return compared;
}

/* Making a sheet to try: it stands at the front of `bytes`, as tuzhelar_hire writes it. */
static inline struct tuzhelar_hired tuzhelar_hire_sheet(size_t panels, size_t triggers, uint32_t state, void *bytes,
                                                        size_t bytes_length)
{
    uint8_t none = 0;
    int64_t answer[TUZHELAR_HIRE_WORDS] = {0, 0};
    struct tuzhelar_hired hired;
    if (bytes == NULL) {
        bytes = &none;
        bytes_length = 0;
    }
    hired.refusal = tuzhelar_hire(panels, triggers, state, (uint8_t *)bytes, bytes_length, answer, TUZHELAR_HIRE_WORDS);
    hired.length = (size_t)answer[0];
    hired.state = (uint32_t)answer[1];
    return hired;
}

/* Whether trigger j, from 0, is one of the spare triggers that planning returned. */
static inline int tuzhelar_is_spare(uint8_t spares, size_t j)
{
    return j < TUZHELAR_MOST && (spares >> j & 1) != 0;
}

/*
 * Component j of line i, both from 0, of a list at the front of `space` whose lines take so many words: a number, or TUZHELAR_ABSENT,
 * for a spare trigger always.
 */
static inline int32_t tuzhelar_component(const int32_t *space, size_t line_words, size_t i, size_t j)
{
    return space[line_words * i + 1 + j];
}

/* The cap of line i, from 0, of a list at the front of `space` whose lines take eight words. */
static inline int32_t tuzhelar_cap(const int32_t *space, size_t i)
{
    return space[TUZHELAR_CAPPED_WORDS * i + TUZHELAR_LINE_WORDS];
}

/* What a number that any function but comparing returned means, and what to look at. */
static inline const char *tuzhelar_meaning(uint32_t number)
{
    switch (number) {
    case TUZHELAR_DONE:
        return "Done.";
    case TUZHELAR_TOO_LONG:
        return "The sheet has more than 2,048 bytes. No good sheet has more than 1,133: look for text behind its end.";
    case TUZHELAR_FORM:
        return "A line is missing or ill-formed, or bytes follow the sheet's end. Look at the order of the lines, their keys, "
               "their numbers of items, numerals such as 05, -0 or +5, blanks, and the line end of each; the first line is rule=2 "
               "or panels=, and under rule=2 there is no floor and no due line; there is a land line for each trigger or none, and "
               "behind these one last line or none.";
    case TUZHELAR_SIZE:
        return "The number of panels or of triggers is not 1 to 6.";
    case TUZHELAR_RANGE:
        return "An entry of a lag, floor, due, after, land or last line is below -100,000 or above 100,000.";
    case TUZHELAR_NO_DUE:
        return "A due mark or a last moment is absent. Each trigger needs a due mark, and in a last line each panel a moment.";
    case TUZHELAR_NO_LAG:
        return "A panel has no lag: no trigger reaches it. Look for a lag line of minus signs alone.";
    case TUZHELAR_NO_FLOOR:
        return "No panel has a floor. At least one needs one.";
    case TUZHELAR_ORDER:
        return "No times keep the order. Look for a circle of after and land rules whose numbers, with the lags to panels waited "
               "for, add up to more than 0.";
    case TUZHELAR_SPACE:
        return "The list has more lines than the lent space holds. Lend seven words for each line of the count returned, eight for "
               "a sheet with a last line.";
    case TUZHELAR_COMPONENTS:
        return "There are not as many times as the sheet has triggers.";
    case TUZHELAR_TIME:
        return "A time is below -1,000,000,000 or above 1,000,000,000.";
    case TUZHELAR_HIRE_SIZE:
        return "The number of panels or of triggers asked for is not 1 to 6.";
    case TUZHELAR_SHEET_SPACE:
        return "The sheet is longer than the bytes lent for it. 1,133 bytes are always enough.";
    case TUZHELAR_NO_TRIGGER_LAG:
        return "A trigger that is not spare has no lag, and under rule=2 each needs one. Look at its place in the lag lines, or take "
               "it out of the after and land lines.";
    case TUZHELAR_YES:
        return "The times are tightest and in time.";
    case TUZHELAR_NO:
        return "The times are not tightest or not in time: they break an after or land rule, other times have a smaller deviation, "
               "or a panel lands after its last moment.";
    default:
        return "No function returns this number.";
    }
}

/* What a number that comparing returned means; of a refusal, which sheet it is about is told by the number alone. */
static inline const char *tuzhelar_same_meaning(uint32_t number)
{
    switch (number) {
    case TUZHELAR_SAME:
        return "The same timings are tightest on both sheets.";
    case TUZHELAR_DIFFERENT:
        return "Other timings are tightest on the one sheet than on the other.";
    case TUZHELAR_UNLIKE:
        return "The sheets have different numbers of triggers, or not the same ones are spare.";
    default:
        return tuzhelar_meaning(number > TUZHELAR_SECOND ? number - TUZHELAR_SECOND : number);
    }
}

#ifdef __cplusplus
}
#endif

#endif
